"""docs/HEADLINE.md and out/DEFINITIONS.md, which `make definitions` writes.

They are made of tests/data/headline.txt, which has their plain sentences, and of the sources, which
have what they quote. In headline.txt

    @ FILE NAME             quotes a definition, word for word, with its comment
    @ FILE FUNCTION: NAME   quotes a clause of a function's contract, `-` for one without a name
    @part NAME              begins a part; {NAME} is the number of lines that it quotes
    @page NAME              ends a page; the next one goes to the file NAME
    @words                  lists the kit's words that are used, and those that the language has, as
    explained below it

Every definition that is reached from a clause that is quoted has to be quoted, down to the kit's
own words. Of these and the language's each that is used has to be explained, and each that is
explained has to be used (tests/test_headline.py)."""
import re

from helpers.statements import TOP, WORD, code, found_at, load, names_in, reach

HEADLINE = "docs/HEADLINE.md"
DEFINITIONS = "out/DEFINITIONS.md"
SENTENCES = TOP / "tests/data/headline.txt"


def bound_in(text):
    """The words that a text itself names: its arguments, its fields and cases, what it defines."""
    said = code(text)
    bound = {"result", "old", "new", "now"}
    bound.update(re.findall(r"«([^»]*)»", said))  # a name that is a word of Rust
    for names in re.findall(r"[({]([^\W\d][\w' ]*?) :", said):
        bound.update(names.split())
    for names in re.findall(r"λ ([^.]*)\.", said):
        bound.update(re.findall(r"[^\W\d][\w']*", names))
    for left in re.findall(r"^(\S[^=\n]*?) =(?: |$)", said, re.M):
        bound.update(re.findall(r"[^\W\d][\w'-]*", left))
    before = r"(?:let|pub|record \{|;|^ *ensures|^)"
    bound.update(re.findall(before + r" *([^\W\d][\w']*) (?:=|:|\{)", said, re.M))
    return bound


def language_words(file, text):
    """The language's words in a text: those that it neither imports nor defines nor names."""
    bound = bound_in(text).union(
        file.own, file.cases, file.imports, file.defined, file.aliases)
    for word in WORD.findall(code(text)):
        if not {word, word.partition(".")[0], word.strip("◌")} & bound:
            yield word


def words_of(files, clauses, reached):
    """The kit's and the language's words in clauses and definitions, each with where it is from."""
    words = {}
    for file, text in clauses + [(file, text) for (file, _), text in reached.items()]:
        if file.path.suffix == ".antt" or (file, text) in clauses:
            words.update(dict.fromkeys(language_words(file, text), file.name))
        for module, name in names_in(file, text):
            is_import = module and not module.startswith("rust:")
            if is_import and name != "Ghosts" and not found_at(files, file, module, name):
                words.setdefault(name.strip("◌"), module)
    return words


class Pages:
    """The pages that the sentences and the sources make."""

    def __init__(self, files):
        self.files = {file.name: file for file in files.values()}
        self.quoted, self.clauses, self.lines, self.faults, self.explained = {}, [], {}, [], {}
        text, _, words = SENTENCES.read_text().partition("@words\n")
        for line in words.splitlines():
            word, _, meaning = line.partition(" : ")
            self.explained[word] = meaning
        body, part, path = [], None, None
        self.bodies = {HEADLINE: body}
        for line in text.splitlines():
            if line.startswith("@page "):
                body, path = self.bodies.setdefault(line[6:], []), None
            elif line.startswith("@part "):
                part, path = line[6:], None
            elif line.startswith("@ "):
                if line.split()[1] == path:
                    body[-1:] = [""]
                else:
                    path = line.split()[1]
                    body.append(f"```{'rust' if path.endswith('.rt') else 'antt'} {path}")
                quote = self.quote(path, line.split(" ", 2)[2])
                self.lines[part] = self.lines.get(part, 0) + len(quote.splitlines())
                body += [quote, "```"]
            elif not (line == "" and body[-1:] == [""]):
                path = None
                body.append(line)

    def quote(self, path, name):
        """What a line of the sentences quotes."""
        file = self.files.get(path)
        function, _, clause = name.partition(": ")
        found = file and (file.clause(function, clause) if clause else file.defined.get(name))
        if not found:
            self.faults.append(f"not found: {name} of {path}")
            return ""
        if clause:
            self.clauses.append((file, found))
        elif (file, name) in self.quoted:
            self.faults.append(f"quoted twice: {name} of {path}")
        self.quoted[(file, name)] = found
        return found

    def texts(self, words):
        """Each page's text; the last one ends with the words."""
        texts = {}
        for name, lines in self.bodies.items():
            body = "\n".join(lines).rstrip("\n") + "\n"
            for part, number in self.lines.items():
                body = body.replace("{%s}" % part, str(number))
            texts[name] = body
        listed = sorted(words,
                        key=lambda word: (not word[0].isascii() or not word[0].isalpha(), word))
        texts[name] += "\n" + "".join(f"- `{word}`: {self.explained.get(word)}\n"
                                      for word in listed)
        return texts


def main():
    """Writes the definitions that aren't on the first page."""
    files = load()
    pages = Pages(files)
    reached, _ = reach(files, pages.clauses)
    text = pages.texts(words_of(files, pages.clauses, reached))[DEFINITIONS]
    (TOP / DEFINITIONS).parent.mkdir(exist_ok=True)
    (TOP / DEFINITIONS).write_text(text)


if __name__ == "__main__":
    main()
