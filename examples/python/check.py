"""Checks a log, and prints what the program prints:  check.py FILE"""
import sys

import vicinity

if len(sys.argv) != 2:
    print("usage: check.py FILE", file=sys.stderr)
    sys.exit(4)
try:
    with open(sys.argv[1], "rb") as file:
        answer = vicinity.check(file.read())
    # with print alone, a full disk would be noticed only at exit
    with open(1, "w", closefd=False) as out:
        print(answer, file=out)
except (OSError, MemoryError) as error:
    try:
        print(error, file=sys.stderr)
    finally:
        sys.exit(4)
sys.exit(answer.status)
