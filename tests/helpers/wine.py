"""Programs for Windows, under wine."""
import contextlib
import fcntl
import subprocess

from helpers.program import Program

HOUR = 3600
NOWHERE = {"stdin": subprocess.DEVNULL, "stdout": subprocess.DEVNULL, "stderr": subprocess.DEVNULL}


@contextlib.contextmanager
def wine_in(prefix):
    """What starts a program: wine with a folder of its own, whose server runs as long as anybody
    uses that folder, so that none starts while another ends. If the tests are broken off, it ends
    by itself, in an hour.

    No address is random (setarch -R): wine needs the page at 7FFE0000, and one start in 8,000 would
    have the heap of wine's loader there, and end with status 1 and without a word."""
    words = ("setarch", "-R", "env", f"WINEPREFIX={prefix}", "WINEDEBUG=-all", "LC_ALL=C.UTF-8")
    with open(f"{prefix}.lock", "a") as users, open(f"{prefix}.boot", "a") as booting:
        fcntl.flock(users, fcntl.LOCK_SH)
        fcntl.flock(booting, fcntl.LOCK_EX)
        subprocess.run([*words, "wineserver", f"-p{HOUR}"], check=False, **NOWHERE)
        subprocess.run([*words, "wineboot"], check=True, **NOWHERE)
        fcntl.flock(booting, fcntl.LOCK_UN)
        yield Program(*words, "wine")
        with contextlib.suppress(BlockingIOError):
            fcntl.flock(users, fcntl.LOCK_EX | fcntl.LOCK_NB)
            subprocess.run([*words, "wineserver", "-k"], check=False, **NOWHERE)
