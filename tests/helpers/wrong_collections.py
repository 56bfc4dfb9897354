"""Wrong collections and wrong readers of surveys, each wrong in one rule. The rows have to find
them."""
from helpers import collections, surveys
from helpers.collections import Collection


def wrong(**rules):
    return type("Wrong", (Collection,), rules)


def by_the_stem_alone(self, *given):
    Collection.__init__(self, *given)
    stems = [collections.found_by(log.name)[2] for log in self.logs]
    self.keys = self.places = [stem if self.catalogue.asks_for_places else None for stem in stems]
    self.without_log = self.places_without_log() if self.catalogue.asks_for_places else []
    self.states = [self.state(item) for item in self.catalogue.items]


def state_where(rule, state, other):
    """One state is taken for another one where a rule applies."""
    def changed(self, item):
        found = Collection.state(self, item)
        return other if found == state and rule(self, item) else found
    return wrong(state=changed)


def may_be_in_possible_logs(self, uid):
    return [at for at in Collection.may_be_in(self, uid) if self.logs[at].is_possible]


def without_findings(*kinds):
    return wrong(findings=lambda self: (one for one in Collection.findings(self)
                                        if not one[0].startswith(kinds)))


def is_elsewhere_too(self, item):
    return any(self.places[at] != item.place for at in self.certain_in(item.uid))


WRONG = {
    "a log is of the place of its stem": wrong(__init__=by_the_stem_alone),
    "in place where it is possible": state_where(
        lambda self, item: any(self.places[at] == item.place for at in self.may_be_in(item.uid)),
        "misplaced", "in place"),
    "misplaced where it is certain in both": state_where(is_elsewhere_too, "in place", "misplaced"),
    "missing while a log is impossible": wrong(may_be_in=may_be_in_possible_logs),
    "missing though its place has no log": state_where(
        lambda self, item: True, "not counted", "missing"),
    "there though it is away": state_where(lambda self, item: True, "returned", "there"),
    "missing though it is away": state_where(lambda self, item: True, "away", "missing"),
    "away though it may be there": state_where(
        lambda self, item: item.away, "not provable", "away"),
    "complete though a log is left over": without_findings("left over"),
    "complete though a place has no log": without_findings("no log of"),
    "complete with an item that is back": without_findings("returned"),
    "complete with an item that wasn't counted": without_findings("not counted"),
    "complete with a misplaced item": without_findings("misplaced"),
    "complete with an unexpected tag": without_findings("unlisted"),
    "complete with what wasn't asked": without_findings("unsettled", "doubtful"),
    "logs of one name": wrong(check=lambda self, name: None),
    "the first sixteen are all": wrong(open=lambda self, at: Collection.open(self, at)[:16]),
    "open with what another log shows": wrong(open=lambda self, at: self.logs[at].open),
    "unexpected tags have no row": wrong(
        table=lambda self: b"".join(line for line in Collection.table(self).splitlines(True)
                                    if b"unexpected" not in line)),
}


def reads_without_an_end(text):
    """As if what was cut off were nothing."""
    found = surveys.read(text)
    while isinstance(found, int) and text:
        text = text[:text.rstrip(b"\n").rfind(b"\n") + 1]
        found = surveys.read(text)
    return found
