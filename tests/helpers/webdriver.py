"""A browser without a window, Debian's chromium."""
import functools
import http.server
import re
import subprocess
import threading

from selenium import webdriver
from selenium.webdriver.chrome.options import Options
from selenium.webdriver.chrome.service import Service

from helpers.program import TOP

WORDS = ("--headless=new", "--no-sandbox", "--disable-dev-shm-usage", "--hide-scrollbars",
         "--remote-debugging-pipe")
LOGGED = {"browser": "ALL", "performance": "ALL"}
SECONDS = 600
RUN = """
const [module, files, done] = arguments;
import(module).then((it) => it.run(...files)).then(done, (error) => done(`failed: ${error.stack}`));
"""


class Handler(http.server.SimpleHTTPRequestHandler):
    """The files of the repository, and a few others by /given/NUMBER."""
    given: tuple = ()

    def translate_path(self, path):
        if path.startswith("/given/"):
            return str(self.given[int(path.removeprefix("/given/"))])
        return super().translate_path(path)

    def log_message(self, *_):
        """Nothing."""


class Driver(Service):
    """A chromedriver that finds a free port by itself: one that was free a moment ago may be
    another's by now."""

    def start(self):
        self.process = subprocess.Popen([self.path, "--port=0"], stdout=subprocess.PIPE,
                                        stderr=subprocess.DEVNULL, text=True)
        started = (re.search(r"successfully on port (\d+)", line) for line in self.process.stdout)
        self.port = int(next(filter(None, started))[1])


class Browser:
    """One browser; `driver` is what selenium calls it by."""

    def __init__(self):
        options = Options()
        for word in WORDS:
            options.add_argument(word)
        options.set_capability("goog:loggingPrefs", LOGGED)
        self.driver = webdriver.Chrome(service=Driver("/usr/bin/chromedriver"), options=options)

    def run_module(self, name, *files):
        """What the function `run` of a module of the repository gives of the addresses of files."""
        handler = functools.partial(type("Given", (Handler,), {"given": files}), directory=str(TOP))
        with http.server.ThreadingHTTPServer(("127.0.0.1", 0), handler) as server:
            threading.Thread(target=server.serve_forever, daemon=True).start()
            self.driver.get(f"http://127.0.0.1:{server.server_port}/tests/wasm/")
            given = [f"/given/{number}" for number in range(len(files))]
            self.driver.set_script_timeout(SECONDS)
            said = self.driver.execute_async_script(RUN, f"/{name}", given)
            server.shutdown()
        return said

    def console(self):
        """What was written on the console since the last call."""
        return [entry["message"] for entry in self.driver.get_log("browser")]

    def close(self):
        self.driver.quit()
