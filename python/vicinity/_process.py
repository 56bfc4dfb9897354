"""What every command shares: how it reads and writes, and how it ends.

A command is a function of its arguments that returns its status, and `run_command` runs it.
It reads with `read`, writes with `write`, and shows the name of a file with `shown`.
If it has no answer it raises NoAnswer, MemoryError or OSError:
then a line is written to standard error, and the status is 4. Nothing goes through sys.stdout
or sys.stderr, so a closed or full stream is noticed at once, and no traceback is written.
"""
import argparse
import locale
import os
import signal
import sys
from contextlib import suppress
from typing import Callable, Iterable, Union

from ._native import T
from ._run import NO_ANSWER

# Within these bytes, a longer log has a line that is too long, or too many lines:
# 1,000,000 lines of 130 bytes, plus one.
MOST_BYTES = 1_000_000 * 130 + 1
PIECE = 1 << 16
#: How text is written.
UTF8 = "utf-8", "backslashreplace"
#: The status where an input is refused.
REFUSED = 3
#: What the words of a command ask for, as `__main__` has read them.
Arguments = argparse.Namespace


class NoAnswer(Exception):
    """Why there is no answer."""


def run_command(command: Callable[[], int]) -> int:
    """The status of a command, which is 4 if it has no answer."""
    signal.signal(signal.SIGINT, signal.SIG_DFL)  # also while the library judges
    sys.unraisablehook = lambda _: None  # failures while something is released as memory runs out
    try:
        _hold_closed()
        if sys.platform == "win32":
            import msvcrt
            for file in (0, 1):  # line ends stay as they are
                msvcrt.setmode(file, os.O_BINARY)
        return command()
    except NoAnswer as why:
        return complain(str(why))
    except MemoryError:
        return complain("out of memory")
    except OSError as error:
        return complain(shown(str(error)))
    except Exception as error:
        # a defect: Python itself would end with 1, which means 'not complete'
        return complain(shown(f"{type(error).__name__}: {error}"))


def _hold_closed() -> None:
    """Puts what can't be read, or written, where standard streams are closed:
    else the next file to be opened, or a pipe between processes, would be taken for one."""
    for stream, wrong_way in enumerate((os.O_WRONLY, os.O_RDONLY, os.O_RDONLY)):
        try:
            os.fstat(stream)
        except OSError:
            os.open(os.devnull, wrong_way)  # it gets the lowest number that is free


def complain(why: str) -> int:
    """Writes a line to standard error, if it can: why there is no answer, with whose status it
    returns, or what may be wrong."""
    _note("vicinity: ", why, "\n")
    return NO_ANSWER


def read(name: str, most: int = sys.maxsize) -> bytes:
    """The contents of a file, or so many bytes of them; - is standard input."""
    try:
        with open(os.dup(0) if name == "-" else name, "rb", buffering=0) as file:
            pieces, left, wanted = [], most, max(PIECE, os.fstat(file.fileno()).st_size)
            # a file in one piece: joining pieces takes the memory twice
            while left > 0 and (piece := os.read(file.fileno(), min(wanted, left))):
                pieces.append(piece)
                left, wanted = left - len(piece), PIECE
            return b"".join(pieces)
    except OSError as error:
        raise NoAnswer(f"cannot read {shown(name)}: {error.strerror}") from None


def read_log(name: str) -> bytes:
    """The contents of a log, as far as they can matter."""
    return read(name, MOST_BYTES)


def tried(name: str, call: Callable[[bytes], T]) -> Union[T, str]:
    """What a call returns for the contents of a log, or why there is no answer."""
    try:
        return call(read_log(name))
    except NoAnswer as why:
        return str(why)
    except MemoryError:
        return f"out of memory: {shown(name)}"


def names_of(arguments: Arguments) -> list[str]:
    """The names of logs among the words, and those in files, separated by NUL if there is any,
    else by line ends. Each of these files has to name one."""
    names = list(arguments.names)
    for file in arguments.logs_from:
        listed = read(file).replace(os.linesep.encode(), b"\n")
        separator = b"\0" if b"\0" in listed else b"\n"
        within = list(map(os.fsdecode, filter(None, listed.split(separator))))
        if not within:
            raise NoAnswer(f"no logs: {shown(file)} names none")
        names += within
    if not names:
        raise NoAnswer("no logs: name at least one, or a file that lists them by --logs-from")
    return names


def write(pieces: Iterable[Union[str, bytes]]) -> None:
    """Writes bytes, and text as UTF-8, to standard output as it comes."""
    waiting = bytearray()
    for piece in pieces:
        waiting += piece.encode(*UTF8) if isinstance(piece, str) else piece
        if len(waiting) >= PIECE:
            _write_out(waiting)
    _write_out(waiting)


def _write_out(waiting: bytearray) -> None:
    try:
        while waiting:
            del waiting[:os.write(1, waiting)]
    except OSError as error:
        raise NoAnswer(f"write failed: {error.strerror}") from None


def shown(name: Union[str, bytes]) -> str:
    """A name on one line, without anything that a terminal would interpret: a backslash is `\\\\`,
    a tab `\\t`, a line end `\\n`, and each byte of another character that can't be printed,
    or that isn't UTF-8, `\\x` and two hex digits."""
    try:
        encoded = os.fsencode(name)
    except UnicodeEncodeError:  # no name of a file, but of a place or of another machine's log
        encoded = str(name).encode("utf-8", "surrogatepass")
    text = encoded.replace(b"\\", b"\\\\").decode("utf-8", "backslashreplace")
    return "".join(sign if sign.isprintable() else {"\t": "\\t", "\n": "\\n"}.get(sign) or
                   "".join(f"\\x{byte:02x}" for byte in sign.encode()) for sign in text)


def tell_terminal(lines: Iterable[str]) -> None:
    """Writes to standard error what is for a person alone, if it is a terminal."""
    if os.isatty(2):
        _note(*lines)


def _note(*pieces: str) -> None:
    """Writes to standard error, if it can."""
    with suppress(OSError, MemoryError):
        os.write(2, "".join(pieces).encode(*UTF8))


def has_colours() -> bool:
    """Whether standard output is a terminal that has colours, and they are wanted:
    NO_COLOR isn't set, or is empty."""
    return os.isatty(1) and not os.environ.get("NO_COLOR") and os.environ.get("TERM") != "dumb"


def has_unicode() -> bool:
    """Whether the text of this locale is UTF-8; on Windows, which has no such locale,
    that of the terminal."""
    if sys.platform == "win32":
        return sys.stdout is not None and sys.stdout.encoding.upper() in ("UTF-8", "UTF8")
    return locale.nl_langinfo(locale.CODESET).upper() in ("UTF-8", "UTF8")
