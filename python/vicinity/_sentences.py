"""What faults and answers mean: sentences that a page says, too. One file has them."""
import json
import re
from pathlib import Path
from typing import Any, Mapping, NamedTuple, Sequence

HERE = Path(__file__).resolve().parent
#: The file as a package has it, and in the repository: a module of the page,
#: which is JSON behind these words.
MADE, SOURCE, BEGINS = HERE / "sentences.mjs", HERE / "../../web/say/sentences.mjs", "SENTENCES = "
_TEXT = (MADE if MADE.exists() else SOURCE).read_text("utf-8")
SENTENCES: Mapping[str, Any] = json.loads(
    _TEXT.partition(BEGINS)[2].rstrip().rstrip(";"))


class Advice(NamedTuple):
    """What is wrong with a line, and what to do."""

    wrong: str
    fix: str


def advice(fault: str, of: str = "faults") -> Advice:
    """What the name of a fault means: of a line of a log, of a reply in one ("replies"),
    or of a catalogue or places ("tables")."""
    faults = SENTENCES["faults"]
    wrong, *fix = SENTENCES[of].get(fault) or faults.get(fault) or faults[""]
    return Advice(wrong, re.sub(r"\{(\w+)\}", lambda part: str(SENTENCES["parts"][part[1]]),
                                " ".join(fix)))


def foreign(line: str) -> Sequence[str]:
    """What a file is that begins with a line nobody meant as one of a log, and what to do;
    empty of others."""
    if re.search(SENTENCES["aLog"][0], re.sub("[\0\ufeff\ufffd]", "", line), re.I):
        return ()
    return next(said for it, *said in SENTENCES["files"].values() if re.search(it, line, re.I))


def numbered(name: str, number: int, of: str = "answers") -> str:
    """A sentence with a number in it, of an answer or of another part of the file."""
    forms = SENTENCES[of][name]
    sentence = forms if isinstance(forms, str) else str(forms[number != 1])
    return sentence.replace("{}", f"{number:,}")
