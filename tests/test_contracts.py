"""Compares what public functions promise with tests/data/contracts.txt, so that no change of a
promise passes unseen: `pytest tests/test_contracts.py --write` writes that file anew, and its diff
then names what changed.

The file has a line for each public function: its number of `requires` and of `ensures` clauses, and
a sum of their text; or that it has no clause, or only those of its trait. Public are `pub`
functions, those of `pub` traits, and those by which a type implements a trait. Then it has a line
for each definition of these crates that a public function reaches by its clauses or its signature,
also by way of others: a sum of its text. White space and comments don't count. The crates of tests
have no line."""
import hashlib
import re
from typing import NamedTuple

from helpers.program import TOP
from helpers.statements import File, load, reach

LISTED = TOP / "tests/data/contracts.txt"
OF_TESTS = {"growths", "tables", "uses", "vic_tests"}
BLOCK = re.compile(r"(?P<trait>pub trait|impl)\b(?:<.*?>)? *(?P<of>.* for )?(?P<type>\w+)")
FUNCTION = re.compile(r"(?P<indent> *)(?P<open>pub )?(?:const )?(?:extern \"C\" )?fn (?P<name>\w+)")
CLAUSE = re.compile(r" *(requires|ensures)\b")
COMMENT = re.compile(r'("[^"]*")|\s*(?:--|//).*')


class Function(NamedTuple):
    """A public function: the lines of its signature, after its type, and those of its clauses."""

    name: str
    signature: list[str]
    clauses: list[str]
    is_of_trait: bool

    def add(self, line: str) -> None:
        """Adds one more line of its head."""
        (self.clauses if self.clauses or CLAUSE.match(line) else self.signature).append(line)


def public_function(line: str, block: re.Match[str] | None) -> Function | None:
    """The function that begins in a line of a block, or of none; None if it isn't public."""
    begin = FUNCTION.match(line)
    if not begin:
        return None
    owner = block["type"] + "::" if block else ""
    is_of_trait = bool(block and block["of"])
    is_declared = bool(block and block["trait"] == "pub trait")
    if begin["open"] or (begin["indent"] == "    " and (is_of_trait or is_declared)):
        return Function(owner + begin["name"], [owner, line], [], is_of_trait)
    return None


def functions_in(text: str) -> list[Function]:
    """The public functions of a file."""
    block, function, indent = None, None, ""
    found = []
    for line in text.splitlines():
        if match := BLOCK.match(line):
            block = match
        elif line == "}":
            block, function = None, None
        if begin := FUNCTION.match(line):
            function, indent = public_function(line, block), begin["indent"]
            found += [function] if function else []
        elif function and line not in (indent + "{", "") and not line.lstrip().startswith("//"):
            function.add(line)
        elif line in (indent + "{", ""):
            function = None
        if function and not function.clauses and line.endswith("{"):
            function = None
    return found


def sum_of(text: str) -> str:
    """A sum of a text without its comments, in which white space counts as one space."""
    plain = "\n".join(COMMENT.sub(lambda match: match[1] or "", line) for line in text.splitlines())
    return hashlib.sha256(" ".join(plain.split()).rstrip(";").encode()).hexdigest()[:12]


def line_of(file: File, function: Function) -> str:
    """What is listed of a public function."""
    name = f"{file.crate}::{file.path.stem}::{function.name}"
    kinds = [clause[1] for clause in map(CLAUSE.match, function.clauses) if clause]
    if not kinds:
        return f"{name} {'as its trait says' if function.is_of_trait else 'without a clause'}"
    counts = f"requires {kinds.count('requires')} ensures {kinds.count('ensures')}"
    return f"{name} {counts} {sum_of(chr(10).join(function.clauses))}"


def definition_line(file: File, name: str, text: str) -> str:
    """What is listed of a definition."""
    module = "::".join(file.path.relative_to(TOP / "crates").with_suffix("").parts)
    return f"definition {module}::{name} {sum_of(text)}"


def listing() -> tuple[list[str], list[str]]:
    """The lines of functions, then those of definitions; and the names that weren't found."""
    files = load(traits=True)
    lines, heads = [], []
    for file in sorted(files.values(), key=lambda file: file.path):
        if file.path.suffix == ".rt" and file.crate not in OF_TESTS:
            for function in functions_in(file.text):
                lines.append(line_of(file, function))
                heads.append((file, "\n".join(function.signature + function.clauses)))
    reached, lost = reach(files, heads)
    return lines + sorted(definition_line(*place, text) for place, text in reached.items()), lost


def test_contracts_are_as_listed(kept):
    lines, lost = listing()
    assert not lost
    kept(LISTED, "\n".join(lines) + "\n")


def test_a_contract_is_read():
    """Of a public function and a public trait's; not of what is private."""
    text = ("pub fn one() -> u8\n    ensures { result ≡ 1 }\n{\n    1\n}\n\nfn two()\n    "
            "requires { a }\n{\n}\n\npub fn three() {\n    one();\n}\n\n"
            "pub trait Set {\n    fn add(&self)\n        requires { a }\n        // a remark\n"
            "        ensures { b };\n}\n\nimpl Set for Row {\n    fn add(&self) {\n    }\n}\n")
    assert [(it.name, it.clauses, it.is_of_trait) for it in functions_in(text)] == [
        ("one", ["    ensures { result ≡ 1 }"], False), ("three", [], False),
        ("Set::add", ["        requires { a }", "        ensures { b };"], False),
        ("Row::add", [], True)]


def test_a_definition_is_reached_by_way_of_others():
    files = load(traits=True)
    file = files["src:vic_log.source"]
    reached, lost = reach(files, [(file, "ensures { SourceStep (left self.old) }")])
    assert "KeepsOrHides" in {name for _, name in reached} and not lost


def test_comments_and_white_space_do_not_count():
    assert sum_of("-- one\na ≡ b  -- two\n  × c") == sum_of("a ≡ b × c")
    assert sum_of('codes "a -- b"') != sum_of('codes "a"')
