"""Reconciles random logs with random lists by brute force. It shares no code and no definition with
what is proved: it was written from docs/COMMANDS.md, and stands on the oracle for one log
(oracle.py).

The first lines of each log leave the same eight UIDs that may be in its field. So a log has at most
256 populations that could have produced it. A UID is somewhere in a family if one of its
populations, one for each of up to three logs, has it; all families are tried. What is possible and
certain, and every finding, is read off them."""
from helpers.air import TOP_BYTE, UID_BITS, Listed, as_mask, greatest, mask_digits
from helpers.oracle import Judge
from helpers.random_logs import eight_uids, ended, opening, rounds
from helpers.reports import open_lines

NAMES = "abc"


def log_over(rng, uids):
    """A version, and the lines of a log whose first lines leave these UIDs."""
    version = rng.randint(1, 3)
    first, silenced = opening(rng, version, uids)
    lines = list(rounds(rng, version, uids, silenced))
    return version, first + (ended(lines) if rng.random() < 0.6 else lines)


def case_of(rng):
    """What is expected, and some logs."""
    uids = eight_uids(rng)
    logs = [log_over(rng, uids) for _ in range(rng.randint(0, len(NAMES)))]
    expected = [uid for uid in uids if rng.random() < rng.choice((0.3, 0.6, 1))]
    if rng.random() < 0.6:
        # what they make certain, so that not every case has findings
        expected = sorted(Families(uids, [], logs).certain())
    expected += [TOP_BYTE | rng.getrandbits(UID_BITS)] * (rng.random() < 0.05)
    rng.shuffle(expected)
    return uids, expected, logs


class Families:
    """What the logs say together: by all families, whose sets of UIDs somewhere are numbers of
    eight bits."""

    def __init__(self, uids, expected, logs):
        self.judge, self.expected, self.logs = Judge(uids), expected, logs
        self.each = [self.judge.judge(lines) for _, lines in logs]

    def known(self, somewhere):
        """The UIDs that are in one of these sets, and those that are in each."""
        return self.judge.known(somewhere)

    def populations(self):
        """Those that could have produced each log."""
        return [set(known.populations) for known in self.each]

    def families(self, populations):
        """Which UIDs are somewhere, in each family of one population for each log."""
        somewhere = {0}
        for ones in populations:
            somewhere = {them | one for them in somewhere for one in ones}
        return somewhere

    def first(self, uid, ones):
        """The name of the first log that has the UID."""
        return next(name for name, known in zip(NAMES, ones) if uid in known)

    def certain(self):
        """The UIDs that the logs make certain, taken together; none if they are impossible."""
        somewhere = self.families(self.populations())
        return self.known(somewhere)[1] if somewhere else set()

    def asked_in(self, possible, certain):
        """What is left to ask for in a log."""
        return possible - certain

    def answer(self):
        """The lines of `reconcile`; `?` where the number of a line isn't looked at."""
        for name, known in zip(NAMES, self.each):
            if known.impossible:
                return [f"impossible at line {known.impossible} of {name}"]
        populations = self.populations()
        each = [self.known(ones) for ones in populations]
        possible, certain = self.known(self.families(populations))
        return list(self.findings(possible, certain, each)) or [f"complete {len(self.expected)}"]

    def findings(self, possible, certain, each):
        """The lines of the findings, by the UIDs somewhere and by those of each log."""
        for uid in sorted(set(self.expected) - possible):
            yield f"absent {uid:016X}"
        for uid in sorted(certain - set(self.expected)):
            yield f"unlisted {uid:016X}"
            yield f"by line ? of {self.first(uid, [known for _, known in each])}"
        unsettled = greatest(map(as_mask, possible - certain - set(self.expected)))
        if unsettled:
            yield "unsettled %d %s" % (unsettled[0][0], mask_digits(*unsettled[0]))
            for name, (may, _) in zip(NAMES, each):
                masks = greatest(map(as_mask, self.asked_in(may, certain)))
                yield from (f"{line} in {name}" for line in open_lines(masks))
        for uid in sorted(set(self.expected) & possible - certain):
            yield f"doubtful {uid:016X} in {self.first(uid, [may for may, _ in each])}"


# Wrong reconcilers, each wrong in one rule.

def wrong(**rules):
    return type("Wrong", (Families,), rules)


def only_where_both(self, populations):
    somewhere = set(range(256)) if populations else {0}
    for ones in populations:
        somewhere = {them & one for them in somewhere for one in ones}
    return somewhere


def last_alone(self, populations):
    return Families.families(self, populations[-1:])


def up_to_the_first_incomplete(self, populations):
    kept = []
    for ones in populations:
        kept.append(ones)
        if len(ones) > 1:
            break
    return Families.families(self, kept)


def certain_in_each(self, somewhere):
    possible, certain = Families.known(self, somewhere)
    heard = [Families.known(self, ones)[1] for ones in self.populations()]
    return possible, {uid for uid in certain if all(uid in known for known in heard)}


def claims_are_heard(self, somewhere):
    possible, certain = Families.known(self, somewhere)
    claimed = {line.uid for _, lines in self.logs
               for line in lines if isinstance(line, Listed)} & set(self.judge.uids)
    return possible | claimed, certain | claimed


WRONG = {
    "possible where it is so in each log": wrong(families=only_where_both),
    "possible where it is so in the last log": wrong(families=last_alone),
    "logs after an incomplete one are left out": wrong(families=up_to_the_first_incomplete),
    "certain where it is so in each log": wrong(known=certain_in_each),
    "claims are heard": wrong(known=claims_are_heard),
    "open masks hold UIDs that another log makes certain": wrong(
        asked_in=lambda self, possible, certain: possible),
    "no logs are complete": wrong(answer=lambda self: Families.answer(self) if self.logs
                                  else ["complete 0"]),
}
