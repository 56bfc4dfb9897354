"""Whether a headline, and the lights below it, say more than the object: written from VERDICTS.md,
COLLECTIONS.md and what the sentences mean, and not from the page. Words that aren't known here
say too much."""
import re

NUMBER = r"(\d[\d,]*)"
NOT_FINISHED, HIDDEN = "Not finished: ", "if stronger replies hid them"
NO_LIST = " The log has no list to compare with."
UNUSABLE = {2: "This count can't be used. The log contradicts itself: ",
            3: ("This text isn't a log", "This log can't be used", "This file isn't a log")}


def number_in(text):
    return int(text.replace(",", ""))


class Log:
    """What a headline may say of the object of a log, whose text lists so many UIDs."""

    def __init__(self, told, listed):
        self.told, self.listed, self.found = told, listed, told["found"]
        self.certain, self.is_open = told["certain"]["count"], told["open"]["count"] > 0
        self.is_complete = told["kind"] == "complete"
        # whether others may be there if replies were hidden
        key = "holds" if self.is_complete and listed else "settled"
        self.is_hiding = told["captured"].get(key) is False
        self.is_deaf = told["deaf"].get(key) is False
        # the words that must be there, by what they say; where there is no list, all are unlisted
        self.must = {"didn't answer|but .* listed": self.found["absent"],
                     "listed": self.found["unlisted"] if listed else 0,
                     "proved": self.found["doubtful"],
                     HIDDEN: self.is_hiding and not self.is_open and self.certain and (
                         self.is_complete or not listed)}

    def is_whole(self):
        """Whether nothing is left open of its list, not even if replies were hidden or the reader
        went deaf."""
        return self.is_complete and self.listed and not self.is_hiding and not self.is_deaf

    def may_say(self):
        """Each claim, and whether it holds for the number in it."""
        found, certain = self.found, self.certain
        proved = self.listed - found["absent"] - found["doubtful"]
        return {
            rf"{NUMBER} tags? (?:is|are) here": lambda n: not self.listed and n == certain,
            r"tags are here, but none was read": lambda: self.is_open and not certain,
            r"no tag is proved to be here, but some may be": lambda: self.is_open and not certain,
            r"others are too|others may be too": lambda: self.is_open,
            rf"all {NUMBER} listed tags are here": lambda n: n == self.listed == proved,
            r"the one listed tag is here": lambda: self.listed == proved == 1,
            r"and no others?, if the reader heard to the end": lambda: (
                self.is_complete or not self.listed) and not (
                self.is_open or self.is_hiding or found["absent"]),
            r"and no others?": lambda: (self.is_complete or not self.listed) and not (
                self.is_open or self.is_hiding or self.is_deaf or found["absent"]),
            rf"others may be, {HIDDEN}": lambda: not self.is_open and (
                self.is_complete or not self.listed),
            r"No tag answered, and nothing is listed": lambda: (
                self.is_complete and not self.listed and not certain),
            rf"No tag answered, but {NUMBER} (?:is|are) listed": lambda n: (
                n == found["absent"] == self.listed and not self.is_open and not certain),
            rf"{NUMBER} didn't answer": lambda n: n == found["absent"],
            rf"{NUMBER} tags? here (?:isn't|aren't) listed": lambda n: n == found["unlisted"],
            rf"{NUMBER} (?:isn't|aren't) proved": lambda n: n == found["doubtful"],
            rf"{NUMBER} listed tags? (?:isn't|aren't) proved, since .* heard": lambda n: (
                n == found["doubtful"]),
            rf"{NUMBER} tags? may be here or not, since .* heard": lambda n: (
                self.is_open and n >= found["doubtful"]),
            rf"{NUMBER} of {NUMBER} listed tags? (?:is|are) (?:proved to be )?here":
                lambda n, all: (n, all) == (proved, self.listed)}


def log_says_too_much(said, listed):
    """Why, if so."""
    told, headline = said["object"], said["headline"]
    if told["status"] in UNUSABLE:
        return None if headline.startswith(UNUSABLE[told["status"]]) else "it can't be used"
    log = Log(told, listed)
    if headline.startswith(NOT_FINISHED) != log.is_open:
        return "whether the search is finished"
    rest = headline.removeprefix(NOT_FINISHED).removesuffix(NO_LIST)
    for words, holds in log.may_say().items():
        claim = re.compile(rf"\b(?:{words})(?=[.;,]| and )", re.I)
        for found in claim.finditer(rest):
            if not holds(*map(number_in, found.groups())):
                return found[0]
        rest = claim.sub("", rest)
    if re.sub(r"[.;, ]|\band\b", "", rest):
        return f"not known: {rest}"
    lacking = [words for words, number in log.must.items() if number
               and not re.search(words, headline)]
    return f"it lacks {lacking}" if lacking else light_says_too_much(said, log)


EACH = re.compile(rf"{NUMBER} logs, each with its own answer\."
                  rf"(?: Complete, as far as a log can show: {NUMBER} of {NUMBER}\.)?")


def each_says_too_much(said, listed):
    """Why, if so, of several logs without a catalogue, that list so many UIDs each."""
    told, found = said["objects"], EACH.fullmatch(said["headline"])
    whole = sum(it["status"] == 0 and Log(it, number).is_whole()
                for it, number in zip(told, listed, strict=True))
    numbers = [number_in(it) for it in found.groups() if it] if found else []
    wanted = [len(told), *([whole, len(told)] if any(listed) else [])]
    return None if numbers == wanted else f"{numbers}, and not {wanted}"


def light_says_too_much(said, log):
    """Why the look of the answer or a light does, if so."""
    told, lights = said["object"], said["lights"]
    holds = {"If replies were hidden": told["captured"]["holds"],
             "If the reader went deaf": told["deaf"]["holds"]}
    wrong = [name for name, is_so in holds.items()
             if lights.get(name, "").startswith("still") and not (is_so and log.is_complete)]
    if lights["Search finished"] == "yes" and (log.is_open or log.is_hiding):
        wrong.append("finished")
    if lights.get("The reader's list") == "matches" and not (log.is_complete and not log.is_hiding):
        wrong.append("matches")
    if said["look"] == "yes" and not log.is_whole():
        wrong.append("green")
    return f"lights: {wrong}" if wrong else None


# Collections.

KINDS = {"missing": "missing", "may be missing": "missing",
         "not heard on": "not provable", "not known yet": "not provable",
         "in the wrong place": "misplaced", "may be in the wrong place": "misplaced",
         "heard in a log of no place": "misplaced", "heard in logs of no place": "misplaced",
         "not in the catalogue": "unexpected", "back that should be away": "returned",
         "not counted": "not counted", "without a tag": "no tag"}
ALL_HERE = re.compile(rf"^All {NUMBER} (?:expected|tagged) items are (?:here|in some log)"
                      r"|^The one (?:expected|tagged) item is (?:here|in some log)"
                      r"|^Nothing is expected here, and no tag answered"
                      rf"|\bTogether the logs have all {NUMBER} expected items\."
                      r"|\bTogether the logs have the one expected item\.")


IF_HEARD = " if the readers? of .+? heard to the end"
DEAF = re.compile(r"no others?, if the readers? of (.+) heard to the end\.")
WHERE = re.compile(rf"others may be in the fields? of (.+), {HIDDEN}")
# Of one item a headline says which it is, of these, in so many cells and characters at most.
NAMED, CELLS, CHARACTERS = ("missing", "may be", "in the wrong", "not heard"), 2, 60
MORE = re.compile(r"[0-9,]+ more")


def place_of(log):
    """What a log is called: as its place, or as its file."""
    return re.split(r"[/\\]", log["name"])[-1] if log["place"] is None else log["place"]


#: How many readers a headline names, if they are more.
MOST_READERS = 8


def names_those(headline, words, told, reading):
    """Whether the logs that a headline names are those that may be wrong in a reading, of which it
    names the first if they are many."""
    found = words.search(headline)
    names = {place_of(log) for log in told["logs"]
             if log[reading] and log["field"] == "possible" and not log["open"]}
    shown = shown_of(found[1] if found else "", names)
    return shown is not None and (shown == names or len(shown) == MOST_READERS)


def shown_of(text, names):
    """Which of some names a list of names has; None if it has others. A name may have a comma."""
    one = "|".join(re.escape(name) for name in sorted(names, key=len, reverse=True))
    listed = re.compile(rf"({one}|{MORE.pattern})(?:, | and |$)")
    shown, at = set(), 0
    while at < len(text):
        if not (found := listed.match(text, at)):
            return None
        shown.add(found[1])
        at = found.end()
    return shown & names


def named(told, state):
    """What a headline may call each item of a state."""
    for item in told["items"]:
        if item["state"] != state:
            continue
        cells = [cell.strip(" \t") for head, cell in zip(told["columns"], item.get("cells", []))
                 if head.strip(" \t").lower() not in ("uid", "away", "place")]
        name = " · ".join([it for it in cells if it][:CELLS]) or item["uid"]
        name = name if len(name) <= CHARACTERS else f"{name[:CHARACTERS]}…"
        if state != "misplaced":
            yield f"{name}, of {item['place']}" if item["place"] else name
        yield from (f"{name}, on {place_of(told['logs'][at])}, belongs to {item['place']}"
                    for at in item["certain_in"])


def collection_says_too_much(said):
    """Why, if so, of a collection with at least one log."""
    told, headline = said["object"], said["headline"]
    counts, logs = told["counts"], told["logs"]
    here, is_complete = counts["in place"] + counts["there"], told["status"] == 0
    wanted = {state: counts[state] for state in KINDS.values() if counts[state]}
    if is_all := ALL_HERE.search(headline):
        said_number = is_all[1] or is_all[2]
        number = number_in(said_number) if said_number else "one" in is_all[0]
        if number != here or wanted.keys() - {"no tag", "unexpected", "returned"}:
            return is_all[0]
        if " item" in is_all[0] and ("tagged" in is_all[0]) != bool(counts["no tag"]):
            return "whether all items have tags"
        if "no other" in headline and (not is_complete or any(log["hidden"] for log in logs)):
            return "no others"
        if "no other" in headline and not names_those(headline, DEAF, told, "deaf"):
            return "no others, though a reader may have gone deaf"
        # where some log may not count, nothing is said of others
        if is_complete and "in some log" not in is_all[0] and any(
                log["hidden"] for log in logs) and (
                HIDDEN not in headline or not names_those(headline, WHERE, told, "hidden")):
            return f"it lacks {HIDDEN!r}, and where"
    if is_complete and is_all:
        has_untagged = bool(re.search(r"ha(s|ve) no tag\b", headline))
        return None if has_untagged == bool(counts["no tag"]) else "whether an item has no tag"
    told_of = dict.fromkeys(wanted, 0)
    for number, kind, which in re.findall(
            rf"{NUMBER} (?:items? )?({'|'.join(KINDS)})((?: its shelf|{IF_HEARD})? \()?",
            headline):
        state = KINDS[kind]
        told_of[state] = told_of.get(state, 0) + number_in(number)
        if bool(which) != (number == "1" and kind.startswith(NAMED)):
            return f"{kind}: which"
        if which and not any(f"{kind}{which}{name})" in headline for name in named(told, state)):
            return f"{kind}: another one"
    for names in re.findall(IF_HEARD.replace(".+?", "(.+?)"), headline.partition("no other")[0]):
        if shown_of(names, {place_of(log) for log in logs if log["deaf"]}) is None:
            return "missing, if another reader heard"
    if told_of != wanted:
        return f"{told_of}, and not {wanted}"
    lacking = [words for words, is_so in (
        (" again", any(log["field"] != "possible" or log["open"] for log in logs)),
        ("o log of ", told["without_log"]),
        (" of no place| unless .* is it", any(log["left_over"] for log in logs)))
        if is_so and not re.search(words, headline)]
    return f"it lacks {lacking}" if lacking else None
