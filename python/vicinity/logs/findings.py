"""What a report says of a log, and the object of the log."""
from functools import cached_property
from itertools import groupby
from operator import attrgetter
from typing import Mapping, Sequence

from .._answers import Finding, FindingKind, Kind, Mask
from .._calls import report
from .._objects import Fields, mask_of, object_of
from .rows import Rows

#: The findings, in the order in which they are told, each with its word.
WORDS = {FindingKind.SILENCED_BY: "silenced by", FindingKind.CONFLICT_LINE: "conflict",
         FindingKind.ABSENT: "absent", FindingKind.UNLISTED: "unlisted",
         FindingKind.UNSETTLED: "unsettled", FindingKind.OPEN_MASK: "open",
         FindingKind.MORE_OPEN_MASKS: "more open", FindingKind.DOUBTFUL: "doubtful"}
#: Findings that are lines of a contradiction.
CONFLICTS = FindingKind.SILENCED_BY, FindingKind.CONFLICT_LINE
#: Of how many findings of each kind the lines are marked.
MOST_LINES = 20


class JudgedLog:
    """A log with what `vicinity report` says of it, and the object of `vicinity json`.
    Raises what `report` raises."""

    def __init__(self, text: bytes):
        self.answer, findings = report(text)
        self.object: Fields = object_of(text)
        #: The refused line, or 0.
        self.refused_line = self.answer.line if self.answer.kind is Kind.REFUSED else 0
        self._findings: Mapping[FindingKind, Sequence[Finding]] = {
            kind: list(alike) for kind, alike in groupby(findings, attrgetter("kind"))}
        #: In how many slots absent UIDs were overlooked, the first of them.
        self.overlooked: Mapping[str, int] = {
            tag["uid"]: tag["overlooked"] for tag in self.object["findings"] if "overlooked" in tag}
        self.rows = Rows(text, self.refused_line, self.lines(MOST_LINES))

    def of(self, kind: FindingKind) -> Sequence[Finding]:
        """The findings of a kind."""
        return self._findings.get(kind, ())

    def lines(self, most: int) -> set[int]:
        """The lines of the log that the report names, the first `most` of each kind."""
        named = {finding.line for kind in WORDS for finding in self.of(kind)[:most]}
        return named.union([self.answer.line]) - {0, self.refused_line}

    def holds(self, reading: str) -> bool:
        """Whether the answer is the same by a cautious reading: "captured" or "deaf"."""
        return reading not in self.object or bool(self.object[reading]["holds"])

    def settles(self, reading: str) -> bool:
        """Whether what is said of all tags, where nothing is open, holds by this reading, too."""
        return (self.holds(reading) if self.answer.is_complete else
                self.object.get(reading, {}).get("settled") is not False)

    def is_shaken(self, reading: str) -> bool:
        """Whether the answer to a list may be another one by this reading; without a list, whether
        other tags may be there by it. Where something is left to ask, and no listed tag is absent,
        the answer itself says so."""
        says_so = self.object["open"]["count"] > 0 and not self.object["found"]["absent"]
        if self.answer.status > 1 or says_so:
            return False
        return not (self.holds(reading) if self.rows.listed else self.settles(reading))

    @cached_property
    def quiet(self) -> set[Mask]:
        """The open masks of tags that were silenced before they were heard, and of no others: these
        answer again after a field cycle."""
        return self.rows.silenced(map(mask_of, self.object["open"]["masks"]))

    @cached_property
    def is_more(self) -> bool:
        """Whether more tags are there than are certain."""
        certain = [int(uid, 16) for uid in self.object["certain"]["uids"]]
        return self.object["open"]["count"] > 0 and self.rows.has_more(certain)
