"""The definitions of specs/ and the types of the sources, and which of them a text names."""
import re
from collections.abc import Iterable, Iterator
from pathlib import Path

TOP = Path(__file__).resolve().parent.parent.parent

WORD = re.compile(
    r"(?<![\w.])(?:◌\S+?◌|[^\W\d][\w'-]*(?:\.[^\W\d][\w'-]*)*|[^\w\s(){}\[\],;.:]+)")
DEFINED = re.compile(
    r"^(?:(?:abbrev|unfoldable)\s+)?(?:pub\s+)?(?:data\s+|record\s+)?([A-Za-z_][\w'-]*)\s*"
    r"(?:\(.*?\)\s*|\{.*?\}\s*)*:", re.M)
CASE = re.compile(r"^  ([A-Z]\w*) :", re.M)
TYPE = re.compile(r"^(?:pub(?:\(crate\))? )?(?:enum|struct|const) (\w+)", re.M)
MODEL = re.compile(r"^impl(?:<.*?>)? Model for (\w+)", re.M)
TRAIT = re.compile(r"^(?:pub trait|impl(?:<.*?>)? \S+ for) (\w+).*$", re.M)
GHOST = re.compile(r"^    (?:pub )?ghost (?!use)\w+(?:[^;{}]|\{(?:[^{}]|\{[^{}]*\})*\})*;", re.M)
FUNCTION = r"^(?:pub (?:extern \"C\" )?|    )fn {}\b"
MEMBER = re.compile(r"^    (?:pub )?ghost (?!use)(\w+)", re.M)
IMPORT = re.compile(r"^\s*(?:ghost )?use (Rattle\.[\w.]+?)\.\{([^}]*)\};?", re.M)
ALIAS = re.compile(r"^\s*(?:ghost )?use (Rattle\.[\w.]+) as (\w+)", re.M)
RUST_IMPORT = re.compile(r"^use ((?:crate|vic_\w+)[\w:]*)::\{?([\w, \n]+)\}?;", re.M)


def paragraphs(text: str) -> list[str]:
    """The parts of a text between blank lines, outside braces."""
    parts: list[str] = []
    part: list[str] = []
    depth = 0
    for line in text.split("\n"):
        if line.strip() or depth > 0:
            part.append(line)
            if not line.lstrip().startswith(("--", "//")):
                depth += line.count("{") - line.count("}")
        elif part:
            parts.append("\n".join(part))
            part = []
    return parts + (["\n".join(part)] if part else [])


def code(paragraph: str) -> str:
    """Without what stands in comments and in quotation marks."""
    return "\n".join(re.sub(r'"[^"]*"', "", re.sub(r"(--|//).*", "", line))
                     for line in paragraph.split("\n"))


class File:
    """A file of specs or of code: what it imports, and its paragraphs by the names they define.

    With `traits` the ghost members of traits and of their impls are part of it."""

    def __init__(self, path: Path, traits: bool = False) -> None:
        self.path = path
        self.name = str(path.relative_to(TOP))
        self.crate = path.relative_to(TOP / "crates").parts[0]
        self.text = path.read_text()
        self.imports: dict[str, tuple[str, str]] = {}
        self.defined: dict[str, str] = {}
        # the ghost members of traits, and what is passed to functions whose clauses are quoted
        self.own = {"self", *MEMBER.findall(self.text)}
        # the cases of kinds of values, each with its kind
        self.cases: dict[str, str] = {}
        for module, names in IMPORT.findall(self.text):
            for listed in filter(None, map(str.strip, names.split(","))):
                first, _, alias = listed.partition(" as ")
                self.imports[(alias or first).strip("◌")] = (module, first)
        self.aliases = {alias: module for module, alias in ALIAS.findall(self.text)}
        self._define()
        if traits and path.suffix == ".rt":
            self._define_traits()

    def _define(self) -> None:
        """Notes what the paragraphs define. A type with a model is known by its model alone."""
        pattern = TYPE if self.path.suffix == ".rt" else DEFINED
        for paragraph in paragraphs(self.text):
            if self.path.suffix == ".antt":
                paragraph = "\n".join(line for line in paragraph.split("\n")
                                      if not re.match(r"(pub )?(use|mod)\b", line))
            for defined in pattern.findall(code(paragraph)):
                self.defined.setdefault(defined, paragraph)
                self.cases.update(dict.fromkeys(CASE.findall(paragraph), defined))
        for paragraph in paragraphs(self.text):
            for defined in MODEL.findall(paragraph):
                self.defined[defined] = paragraph

    def _define_traits(self) -> None:
        """Notes the ghost members of each trait, and of each impl of one with the type's."""
        for paragraph in paragraphs(self.text):
            head = TRAIT.search(paragraph)
            if head and not MODEL.search(paragraph):
                ghosts = GHOST.findall(paragraph)
                if ghosts:
                    before = self.defined.get(head[1], "")
                    self.defined[head[1]] = "\n".join([before, head[0], *ghosts])

    def clause(self, function: str, name: str) -> str | None:
        """A clause of a function's contract, as it stands."""
        head = re.search(FUNCTION.format(function), self.text, re.M)
        body = self.text[head.start():] if head else ""
        self.own.update(re.findall(r"[<(,]\s*(\w+):", body.partition("ensures")[0]))
        begin = r"^ *ensures \{" if name == "-" else rf"^ *ensures {name} \{{"
        found = re.search(begin, body, re.M)
        if not found:
            return None
        depth, end = 1, found.end()
        while depth:
            depth += {"{": 1, "}": -1}.get(body[end], 0)
            end += 1
        return body[found.start():end]


Files = dict[str, File]


def load(traits: bool = False) -> Files:
    """The files of all crates, by the names under which they are imported."""
    files = {}
    for path in sorted((TOP / "crates").glob("*/specs/**/*.antt")):
        parts = path.relative_to(TOP / "crates").with_suffix("").parts
        files["Rattle." + ".".join(parts)] = File(path, traits)
    for path in sorted((TOP / "crates").glob("*/src/**/*.rt")):
        parts = path.relative_to(TOP / "crates").with_suffix("").parts
        files["src:" + parts[0] + "." + ".".join(parts[2:])] = File(path, traits)
    return files


def place_of(files: Files, module: str, name: str) -> tuple[File, str] | None:
    """The file and the name that an import stands for; None where it is the kit's."""
    if module in files:
        return files[module], files[module].cases.get(name, name)
    declared = re.match(r"Rattle\.(\w+)\.specs\.declared\.([\w.]+)$", module)
    if not declared or declared[1] not in {file.crate for file in files.values()}:
        return None
    *inside, kind = declared[2].removesuffix(".TheVariants").split(".")
    file = files[f"src:{declared[1]}.{'.'.join(inside)}"]
    if name == "Ghosts" and kind not in file.defined:
        return None  # a trait, whose ghost members weren't loaded
    return file, name if kind == "TheConstants" else kind


def names_in(file: File, text: str) -> Iterator[tuple[str | None, str]]:
    """What the words of a text stand for: an import, or (None, name) for a neighbour."""
    for word in WORD.findall(code(text)):
        head, _, rest = word.partition(".")
        if head in file.aliases and rest:
            yield file.aliases[head], rest
        for name in {head, word.strip("◌")}:
            if name in file.imports:
                yield file.imports[name]
            elif name in file.defined:
                yield None, name
    if file.path.suffix == ".rt":
        for module, names in RUST_IMPORT.findall(file.text):
            crate = file.crate if module.startswith("crate") else module.split(":")[0]
            for name in map(str.strip, names.split(",")):
                if name and re.search(rf"\b{name}\b", text):
                    yield "rust:" + crate, name


def found_at(files: Files, file: File, module: str | None, name: str) -> tuple[File, str] | None:
    """Where a name is defined; None where it is the kit's, or a Rust name that is no type."""
    if module is None:
        return file, name
    if module.startswith("rust:"):
        return next(((other, name) for key, other in files.items()
                     if key.startswith("src:" + module[5:] + ".") and name in other.defined), None)
    return place_of(files, module, name)


Reached = dict[tuple[File, str], str]


def reach(files: Files, texts: Iterable[tuple[File, str]]) -> tuple[Reached, list[str]]:
    """The definitions that texts name, also by way of others, and those that weren't found."""
    reached: Reached = {}
    lost, wait = [], list(texts)
    while wait:
        file, text = wait.pop(0)
        for module, name in names_in(file, text):
            place = found_at(files, file, module, name)
            if place and place[1] not in place[0].defined:
                lost.append(f"{place[1]} of {place[0].name}")
            elif place and place not in reached:
                reached[place] = place[0].defined[place[1]]
                wait.append((place[0], reached[place]))
    return reached, lost
