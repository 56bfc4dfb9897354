"""The commands of the program: tests/data/commands.txt has a line for each, with its operands, in
the order of their numbers for C, from 1."""
from helpers.program import TOP

#: The operands of each command, by its name.
OPERANDS = dict(line.split(" ", 1)
                for line in (TOP / "tests/data/commands.txt").read_text().splitlines())
#: The number of each command for C, by its name.
NUMBERS = {name: number for number, name in enumerate(OPERANDS, 1)}
