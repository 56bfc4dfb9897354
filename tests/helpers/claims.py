"""What the page says of a log where it goes beyond the library's answer (tests/wasm/told.mjs), and
by brute force whether it may say so. Of logs without first lines no populations are known, so for
these 'others are too' and 'incomplete' aren't looked at."""
from helpers.air import Listed, Reply
from helpers.oracle import Case, captured


def claims(case, told):
    """Each claim by a name: whether it is made, and whether it is so."""
    listed = {line.uid for line in case.lines if isinstance(line, Listed)}
    there = [{uid for place, uid in enumerate(sorted(case.uids)) if one >> place & 1}
             for one in case.known.populations]
    return {"all are here": (told["look"] == "yes", listed and is_complete_if_hidden(case)),
            "others are too": (told["isMore"], all(set(case.known.certain) < one for one in there)),
            "incomplete": (told["list"] == "incomplete", all(one - listed for one in there))}


def is_complete_if_hidden(case):
    """Whether the list is complete, also if each reply hid others."""
    lines = [captured(line.uid) if isinstance(line, Reply) else line for line in case.lines]
    return all(one.answer.startswith("complete")
               for one in (case, Case(case.version, case.uids, lines)))
