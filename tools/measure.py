#!/usr/bin/env python3
"""Measures the built program on large logs:
measure.py [--runs N] [--command NAME] SHAPE SIZE [SHAPE SIZE ..]

The shapes are those of biglog.py; those that begin with `sim-` are given to `simulate`, the others
to the command, `check` if none is named. For each it prints the number of lines, the least and the
most processor seconds of N runs (3), the most memory, and what was answered.
"""
import os
import subprocess
import sys
import tempfile

TOP = os.path.dirname(os.path.dirname(os.path.abspath(__file__)))
PROGRAM = os.path.join(TOP, "crates/vicinity/out/vicinity")


def once(command, path):
    """Processor seconds, megabytes, and the first line that was written."""
    with tempfile.TemporaryFile() as out:
        child = subprocess.Popen([PROGRAM, command, path], stdout=out)
        _, _, usage = os.wait4(child.pid, 0)
        out.seek(0)
        line = out.readline().decode().strip()
        return usage.ru_utime + usage.ru_stime, usage.ru_maxrss / 1024, line


def main():
    words = sys.argv[1:]
    given = {"--runs": "3", "--command": "check"}
    while len(words) > 1 and words[0] in given:
        given[words[0]], words = words[1], words[2:]
    if not words or len(words) % 2:
        sys.exit(__doc__)
    print("| command and log | lines | processor | memory | answer |\n|---|---|---|---|---|")
    for shape, size in zip(words[::2], words[1::2]):
        with tempfile.NamedTemporaryFile() as log:
            subprocess.run([os.path.join(TOP, "tools/biglog.py"), shape, size], stdout=log,
                           check=True)
            with open(log.name, "rb") as text:
                lines = sum(1 for _ in text)
            command = "simulate" if shape.startswith("sim-") else given["--command"]
            tried = [once(command, log.name) for _ in range(int(given["--runs"]))]
        seconds = [second for second, _, _ in tried]
        print("| `%s`, %s %s | %d | %.2f to %.2f s | %d MB | `%s` |" % (
            command, shape, size, lines, min(seconds), max(seconds), max(mb for _, mb, _ in tried),
            tried[0][2]))


if __name__ == "__main__":
    main()
