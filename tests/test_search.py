"""The search of reader_loop.py in simulated fields, in which strong replies hide weaker ones, noise
covers slots, weak tags miss requests, receivers die, and more goes wrong; and that reader_loop.c
does the same over the same chips."""
import random
from collections.abc import Callable

import pytest

import reader_loop
from helpers import chips
from reader_loop import Chances, Field, Search

pytestmark = pytest.mark.usefixtures("vicinity")
# As many as docs/READERS.md speaks of.
FIELDS, RESTARTED = 1000, 600
TAGS = 30


class Forgetful(Search):
    """Begins each log with an empty list."""

    def begin(self):
        self.heard = set()
        super().begin()


class Unsure(Search):
    """Asks no tag at the end."""

    def make_sure(self):
        self.is_sure = True


def field_of(seed, chances=Chances(), kind=Field):
    """A field of random tags."""
    rng = random.Random(seed)
    return kind({0xE0 << 56 | rng.randrange(1 << 56) for _ in range(TAGS)}, rng, chances)


def searches(chances=Chances(), fields=FIELDS, kind=Field, search=Search):
    """Searches over such fields, not yet begun."""
    return (search(field_of(seed, chances, kind)) for seed in range(fields))


@pytest.mark.parametrize(("chances", "fields", "rounds"), [
    (Chances(), FIELDS, 14), (Chances(capture=0.3, noise=0.1), FIELDS, 17),
    (Chances(capture=1.0), 100, 20), (Chances(noise=0.5), 100, 50)])
def test_it_finds_all_tags_under_capture_and_noise(chances, fields, rounds):
    """What it writes is true, so each answer is complete, and no tag is missing. It takes so many
    rounds on average, in one log."""
    taken = 0
    for search in searches(chances, fields):
        assert search.is_done(search.run(), 1) and search.heard == search.field.uids
        assert search.logs == 1
        taken += search.rounds
    assert taken < fields * rounds


def test_a_tag_that_is_missing_was_overlooked():
    """Where weak tags miss requests, the answer may be complete without them: only without tags
    that didn't answer where they were asked."""
    missing = complete = 0
    for search in searches(Chances(capture=0.3, miss=0.5, noise=0.05), 100):
        if search.run().answer.is_complete:
            complete += 1
            missing += len(search.field.uids - search.heard)
            assert search.field.uids - search.heard <= search.field.overlooked
            assert search.heard <= search.field.uids
    assert complete > 0 and missing > 0


# As docs/READERS.md has them: of the fields, so many lists are complete, and of these so many lack
# a tag; of so many, an earlier log had heard it.
MISSES, DEAD = Chances(miss=0.2), Chances(capture=0.3)


@pytest.mark.parametrize(("search", "chances", "margin", "complete", "lacking", "forgotten"), [
    (Search, MISSES, 1, 596, 33, 0), (Search, MISSES, 2, 596, 4, 0), (Search, MISSES, 3, 596, 1, 0),
    (Search, Chances(capture=0.3, miss=0.2), 1, 600, 12, 0), (Forgetful, MISSES, 1, 598, 63, 30)])
def test_no_log_forgets_what_an_earlier_one_heard(
        search, chances, margin, complete, lacking, forgotten):
    tried = list(searches(chances, RESTARTED, chips.Recorded, search))
    done = [one for one in tried if one.run(margin).answer.is_complete]
    assert sum(one.logs > 1 for one in tried) > RESTARTED / 4
    assert len(done) == complete
    assert sum(one.heard != one.field.uids for one in done) == lacking
    assert sum(not one.field.told <= one.heard for one in done) == forgotten


@pytest.mark.parametrize(("search", "complete"), [(Search, 13), (Unsure, 93)])
def test_no_list_is_complete_by_a_receiver_that_died(search, complete):
    """But where it died before it heard anything, or no tag is asked at the end."""
    done = [one for one in searches(DEAD, kind=chips.Deaf, search=search)
            if one.run().answer.is_complete]
    assert len(done) == complete and all(one.heard != one.field.uids for one in done)
    assert search is Unsure or not any(one.field.told for one in done)


def test_a_reference_tag_vouches_for_an_empty_field():
    """One that is on the list from the start: whenever the receiver dies, no list is complete."""
    for search in searches(DEAD, 100, chips.Deaf):
        search.field.left %= 2
        search.heard = {min(search.field.uids)}
        assert not search.run().answer.is_complete
    reference = {0xE0 << 56 | 1}
    for tags, complete in (reference, True), (set(), False):
        search = Search(Field(tags, random.Random(1)))
        search.heard = set(reference)
        assert search.is_done(search.run(), 1) == complete


def test_a_receiver_that_dies_at_the_very_end_is_seen():
    """At each of the last requests: the list isn't complete before a tag that was found was heard
    once more."""
    sent = Search(field_of(1, kind=chips.Counted))
    assert sent.is_done(sent.run(), 1)
    for left in range(sent.field.heard_last - 40, sent.field.heard_last):
        search = Search(field_of(1, kind=chips.Deaf))
        search.field.left = left
        found = search.run()
        assert not found.answer.is_complete and search.logs == reader_loop.MOST_LOGS


def test_a_field_that_is_not_off_for_long_enough_is_seen():
    for search in searches(fields=20, kind=chips.ShortOff):
        assert not search.run().answer.is_complete


@pytest.mark.parametrize(("kind", "chances", "logs"), [
    (chips.Careless, Chances(), 1.1), (chips.Astray, Chances(), 1.6), (chips.Foreign, Chances(), 2),
    (chips.Damaged, Chances(capture=0.3, noise=0.1), 1.1)])
def test_it_ends_where_tags_or_chips_err(kind, chances, logs):
    """With all tags on its list, after so many logs on average."""
    taken = 0
    for search in searches(chances, 100, kind):
        assert search.is_done(search.run(), 1)
        assert search.heard == {uid for uid in search.field.uids if uid >> 56 == 0xE0}
        taken += search.logs
    assert taken < 100 * logs


def test_of_two_tags_with_one_uid_it_says_so():
    """They can't be read, so it ends at the limit of rounds."""
    for search in searches(fields=5, kind=chips.Twins):
        assert not search.run().answer.is_complete and search.logs == 1
        assert search.unread == {min(search.field.uids)} == search.field.uids - search.heard
        limit = reader_loop.MOST_ROUNDS + reader_loop.MOST_ROUNDS_EACH * (TAGS - 1)
        assert limit <= search.rounds <= limit + 1


def test_it_finds_tags_that_the_search_before_silenced():
    """All tags are Ready when a log begins."""
    for search in searches(fields=20):
        search.run()
        again = Search(search.field)
        assert again.run().answer.is_complete and again.heard == again.field.uids


def test_it_finds_a_tag_that_was_silenced_before_it_was_heard():
    """Also one that an earlier log had heard, and asks the others no more."""
    for earlier in False, True:
        for search in searches(fields=20):
            uid = min(search.field.uids)
            search.silence(uid)
            search.heard |= {uid} if earlier else set()
            assert search.is_done(search.run(), 1) and search.heard == search.field.uids
            assert search.logs == 1 and search.rounds < 25


def test_it_asks_until_the_margin_is_reached():
    for search in searches(Chances(capture=0.3), 20):
        found = search.run(4)
        assert search.is_done(found, 4) and not search.is_done(found, 5)
        assert found.weakest.margin == 4 and search.calls <= 3


def test_it_ends_at_the_limit_of_rounds(monkeypatch):
    """The margin that it says is the one that it reached."""
    monkeypatch.setattr(reader_loop, "MOST_ROUNDS", 30)
    monkeypatch.setattr(reader_loop, "MOST_ROUNDS_EACH", 0)
    for search in searches(fields=20):
        found = search.run(50)
        assert found.answer.is_complete and 10 < found.weakest.margin < 30 == search.rounds
        assert not search.is_done(found, 50) and not search.is_done(found, 1)


class BrokenOff(Field):
    """A reader that breaks each round off after so many slots, by the number of the round."""
    slots: Callable[[int], int]
    sent = 0

    def transceive(self, frame):
        held = super().transceive(frame)
        self.sent += bool(held)
        return held[:self.slots(self.sent)]


def broken_off(slots, fields):
    for search in searches(fields=fields, kind=BrokenOff):
        search.field.slots = slots
        yield search


@pytest.mark.parametrize("rest", [0, 1, 5])
def test_slots_that_were_not_reached_are_no_silence(monkeypatch, rest):
    """From some round on, at most so many slots are reached: what is complete has all tags."""
    monkeypatch.setattr(reader_loop, "MOST_ROUNDS_EACH", 0)
    complete = 0
    for last in range(20):
        for search in broken_off(lambda number: 16 if number <= last else rest, 10):
            answer, weakest = search.run(5)
            complete += answer.is_complete
            assert not answer.is_complete or search.heard == search.field.uids
            assert rest > 0 or weakest.margin <= last
    assert complete > 0


def test_it_finds_all_tags_if_rounds_break_off():
    rng = random.Random(1)
    for search in broken_off(lambda _: rng.choice((0, 1, 5, 16, 16, 16)), 100):
        assert search.run().answer.is_complete and search.heard == search.field.uids


def test_without_its_last_rounds_it_is_not_complete():
    for search in searches(Chances(capture=0.3), 100):
        search.ask_on(reader_loop.ALL)
        assert not search.check().answer.is_complete


def test_with_replies_noted_as_alone_it_misses_hidden_tags():
    """What the letter H is for: the same searches, noted with R, without their last rounds."""
    complete = missed = 0
    for search in searches(Chances(capture=0.3), 300):
        search.ask_on(reader_loop.ALL)
        search.lines = [line.replace(b"H ", b"R ") for line in search.lines]
        is_complete = search.check().answer.is_complete
        complete += is_complete
        missed += is_complete and search.heard != search.field.uids
    assert (complete, missed) == (273, 264)


@pytest.mark.parametrize("kind", chips.CHIPS)
def test_the_loop_in_c_does_the_same(loop_over_a_chip, kind):
    """Over the same chip it writes the same log, with the same list and answer."""
    for seed in range(20):
        chances = Chances(capture=0.3, miss=0.2, noise=0.1) if seed % 2 else Chances()
        search = Search(field_of(seed, chances, kind))
        found = search.run(margin=2)
        log, heard, said = chips.searched(loop_over_a_chip, field_of(seed, chances, kind), 2)
        assert log == b"".join(search.lines) and heard == search.heard
        assert said.startswith(f"{found.answer} after {search.rounds} rounds in log {search.logs},")
