"""A page as a person uses it, in a browser: what is said on it, and whether all can read it."""
import base64
import contextlib
import itertools
import json
import re
import time

# How long a condition is waited for at most, in seconds, also on a busy machine.
WAIT = 120
CONTRAST, TARGET, PHONE = 4.5, 24, 390
DROP = """
const data = new DataTransfer(), [files] = arguments;
for (const [name, text] of files) data.items.add(new File([text], name));
const how = { dataTransfer: data, bubbles: true, cancelable: true };
document.dispatchEvent(new DragEvent("drop", how));
"""
TEXTS = "return [...document.querySelectorAll(arguments[0])].map((it) => it.innerText)"
# Each text with its contrast to what is behind it.
CONTRASTS = """
const luminance = ([r, g, b]) => [r, g, b].map((it) => it / 255)
  .map((it) => it <= .04045 ? it / 12.92 : ((it + .055) / 1.055) ** 2.4)
  .reduce((sum, it, i) => sum + it * [.2126, .7152, .0722][i], 0);
const colour = (text) => text.match(/[\\d.]+/g).map(Number);
function behind(element) {
  const layers = [];
  for (let it = element; it; it = it.parentElement) {
    const [r, g, b, a = 1] = colour(getComputedStyle(it).backgroundColor);
    layers.push([r, g, b, a]);
    if (a === 1) break;
  }
  return layers.reduceRight((under, [r, g, b, a]) =>
    [r, g, b].map((it, i) => it * a + under[i] * (1 - a)), [255, 255, 255]);
}
const found = [], walker = document.createTreeWalker(document.body, NodeFilter.SHOW_TEXT);
for (let it; (it = walker.nextNode());) {
  const element = it.parentElement;
  if (!it.data.trim() || !element.checkVisibility()) continue;
  if (element.closest("script, .unseen, caption")) continue;
  const one = luminance(colour(getComputedStyle(element).color));
  const other = luminance(behind(element));
  found.push([it.data.trim(), (Math.max(one, other) + .05) / (Math.min(one, other) + .05)]);
}
return found;
"""
# What can be pressed, with its height and its name.
TARGETS = """
return [...document.querySelectorAll("button, summary, label.choose")]
  .filter((it) => it.checkVisibility())
  .map((it) => [it.textContent, it.getBoundingClientRect().height]);
"""
# Presses one of some elements, if there is such a one.
PRESS = """
const it = [...document.querySelectorAll(arguments[0])].at(arguments[1]);
it?.click();
return Boolean(it);
"""
WIDE = "return document.documentElement.scrollWidth"
# Waits for an element with some words, and looks only when something has changed.
WHEN = """
const [selector, words, done] = arguments, is = (it) => it.textContent.includes(words);
const isThere = () => [...document.querySelectorAll(selector)].some(is);
if (isThere()) done(true);
const seen = new MutationObserver(() => { if (isThere()) done(true); });
seen.observe(document, { childList: true, characterData: true, subtree: true });
"""
# Work of a known amount: 2.4 million numbers are copied. A page that works so many times as long is
# frozen.
KNOWN = "structuredClone(Array.from({ length: 24_000 }, () => [...Array(100).keys()]))"
FROZEN = 10


class Screen:
    """The page that a browser shows."""

    def __init__(self, browser):
        self.browser, self.driver, self.is_opened = browser, browser.driver, False

    def open(self, file, part="#reader"):
        """Opens a page anew, and waits until it is drawn: with what is for whoever maintains the
        reader, or as everybody else does."""
        self.is_opened = True
        self.driver.get("about:blank")  # else a part of the page that is open would be shown
        self.browser.console()
        self.driver.get_log("performance")
        self.driver.get(f"file://{file}{part}")

    def end(self):
        """At the end nothing was fetched, and nothing stands on the console."""
        self.driver.execute_cdp_cmd("Emulation.setEmulatedMedia", {"media": "", "features": []})
        self.driver.execute_cdp_cmd("Emulation.clearDeviceMetricsOverride", {})
        logged = self.driver.get_log("performance")
        asked = [json.loads(entry["message"])["message"] for entry in logged]
        kinds = {it["params"]["request"]["url"].partition(":")[0] for it in asked
                 if it["method"] == "Network.requestWillBeSent"}
        assert kinds <= {"file", "blob", "data"} and ("file" in kinds or not self.is_opened)
        assert self.browser.console() == []

    def run(self, script, *given):
        return self.driver.execute_script(script, *given)

    def drop(self, **files):
        self.drop_files(files)

    def drop_files(self, files):
        self.run(DROP, [[name, text.decode()] for name, text in files.items()])

    def choose(self, folder, files):
        """Opens files that are written into a folder, byte for byte."""
        for name, content in files.items():
            (folder / name).write_bytes(content)
        names = "\n".join(str(folder / name) for name in files)
        self.driver.find_element("id", "files").send_keys(names)

    def texts(self, selector):
        return self.run(TEXTS, selector)

    def press(self, selector, number=0):
        """Presses an element once it is there, in one step: the page may draw it anew meanwhile."""
        self.wait(lambda: self.run(PRESS, selector, number), lambda: f"{selector} isn't there")

    def said(self):
        return "\n".join(self.texts("#told"))

    def until(self, selector, words):
        """Waits for an element with these words."""
        def is_there():
            return any(words in text for text in self.texts(selector))
        self.wait(is_there, lambda: f"{selector}: {words!r} isn't in {self.texts(selector)}")

    def when(self, selector, words):
        """The same without asking the page again and again."""
        self.driver.set_script_timeout(WAIT)
        self.driver.execute_async_script(WHEN, selector, words)

    @staticmethod
    def wait(is_so, why=lambda: ""):
        """Waits for a condition."""
        end = time.monotonic() + WAIT
        while not is_so():
            assert time.monotonic() < end, why()
            time.sleep(.05)

    def worked(self):
        """For how many seconds of a processor the page's own thread has worked."""
        self.driver.execute_cdp_cmd("Performance.enable", {})
        told = self.driver.execute_cdp_cmd("Performance.getMetrics", {})["metrics"]
        return next(it["value"] for it in told if it["name"] == "ThreadTime")

    @contextlib.contextmanager
    def never_frozen(self):
        """What the page does meanwhile, all of it, is little beside work of a known amount. Both
        are counted by the processor's time, so it doesn't matter what else the machine does. Wait
        by `when`: else it matters how often the page is asked."""
        start = self.worked()
        self.run(KNOWN)
        known = self.worked()
        yield
        assert self.worked() - known < FROZEN * (known - start)

    def media(self, kind="", scheme="light", forced="none"):
        """Paper or the screen; light or dark; with the page's colours, or only with the system's
        if these are forced."""
        features = [{"name": "prefers-color-scheme", "value": scheme},
                    {"name": "forced-colors", "value": forced}]
        self.driver.execute_cdp_cmd("Emulation.setEmulatedMedia",
                                    {"media": kind, "features": features})

    def on_a_phone(self):
        size = {"width": PHONE, "height": 800, "deviceScaleFactor": 1, "mobile": True}
        self.driver.execute_cdp_cmd("Emulation.setDeviceMetricsOverride", size)

    def is_readable(self):
        """Contrasts of at least 4.5, one heading of the first order, names and 24 pixels for what
        is pressed; no wider than a phone."""
        for scheme, forced in itertools.product(("light", "dark"), ("none", "active")):
            self.media(scheme=scheme, forced=forced)
            contrasts = self.run(CONTRASTS)
            assert len(contrasts) > 5
            assert [it for it in contrasts if it[1] < CONTRAST] == []
        self.media()
        targets = self.run(TARGETS)
        assert [it for it in targets if not it[0].strip() or it[1] < TARGET] == []
        assert len(self.texts("h1")) == 1
        self.on_a_phone()
        assert self.run(WIDE) <= PHONE
        self.driver.execute_cdp_cmd("Emulation.clearDeviceMetricsOverride", {})

    def sheets(self):
        """How many sheets of paper it takes."""
        data = self.driver.execute_cdp_cmd("Page.printToPDF", {})["data"]
        return len(re.findall(rb"/Type /Page\b", base64.b64decode(data)))

    def picture(self, width, last):
        """What is seen of it until the end of an element, at twice the size, as PNG."""
        size = {"width": width, "height": 2 * width, "deviceScaleFactor": 2, "mobile": False}
        self.driver.execute_cdp_cmd("Emulation.setDeviceMetricsOverride", size)
        end = self.run("return document.querySelector(arguments[0]).getBoundingClientRect().bottom",
                       last)
        clip = {"x": 0, "y": 0, "width": width, "height": round(end) + 16, "scale": 1}
        words = {"format": "png", "clip": clip}
        said = self.driver.execute_cdp_cmd("Page.captureScreenshot", words)
        return base64.b64decode(said["data"])
