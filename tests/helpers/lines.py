"""Logs by the short names of their lines, the rows of the files in tests/data/rows/, large logs."""
import re
import subprocess

from helpers.program import TOP

SHORT = re.compile(r"([SCDNF#])(\d*)")
AROUND = re.compile(r"~(\w+) (\d+) (\w)")
PART = re.compile(r'"([^"]*)"(?: \* (\d+))?')


def rows(name):
    """The rows of a file in tests/data/rows/, each with its place."""
    lines = (TOP / "tests/data/rows" / name).read_text().split("\n")
    for number, line in enumerate(lines, 1):
        if line.strip() and not line.startswith("#"):
            yield f"tests/data/rows/{name}:{number}", line


NAMES = {name: f"{letter} {digits}" for _, line in rows("lines") for name, letter,
         digits in [line.split()[:3]]}


def lines_named(name):
    """The lines of a short name."""
    if name == "empty":
        return [""]
    if name in NAMES:
        return [NAMES[name]]
    letter, count = SHORT.fullmatch(name).groups()
    return [letter] * int(count or 1)


def text_of(lines):
    return "".join(f"{line}\n" for line in lines).encode()


def unquoted(parts):
    """The text of parts in quotation marks."""
    assert not PART.sub("", parts).strip(" +"), f"no text: {parts}"
    return b"".join(part.encode().decode("unicode_escape").encode() * int(count or 1)
                    for part, count in PART.findall(parts))


def log_lines(given):
    """The lines of a log by its names, of which the first may be its version, as `V2`."""
    names = given.split()
    version = names.pop(0)[1:] if names and names[0][0] == "V" else 1
    return [f"vicinity-log {version}"] + [line for name in names for line in lines_named(name)]


def log_of(given):
    """The text of a log, by its names or in quotation marks."""
    return unquoted(given) if given.startswith('"') else text_of(log_lines(given))


def biglog(shape, size):
    """The text of a log that tools/biglog.py makes."""
    made = [TOP / "tools/biglog.py", shape, str(size)]
    return subprocess.run(made, capture_output=True, check=True).stdout


def around(tag, most, log):
    """The open masks of 1 to `most` bits around a tag: its low bits, the last of them turned."""
    uid = int(NAMES[f"U{tag}"].split()[1], 16)
    for length in range(1, int(most) + 1):
        value = uid % (1 << length) ^ 1 << length - 1
        yield f"open {length} {value:0{(length + 7) // 8 * 2}X} in {log}"


def reconciled_rows():
    """The rows of many logs, by their places: what is expected, the logs, the lines of the answer
    and its status."""
    for place, row in rows("reconciliations"):
        status, expected, logs, answer = (part.strip() for part in row.split("|"))
        texts = [log_of("" if log.strip() == "empty" else log.strip()) for log in logs.split(";")]
        lines = [line for told in answer.split(" / ") for match in [AROUND.fullmatch(told)]
                 for line in (around(*match.groups()) if match else [told])]
        yield place.rpartition("/")[2], log_of(expected), texts if logs else [], lines, int(status)
