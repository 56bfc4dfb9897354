"""What ends the lines of a collection in a terminal."""
from collections import Counter, defaultdict
from typing import Iterable, Iterator

from .._process import shown


def summary(states: Iterable[tuple[str, str]]) -> Iterator[str]:
    """How many there are of each state, and at each place, of pairs of a place, or nothing, and a
    state."""
    places: dict[str, Counter[str]] = defaultdict(Counter)
    for place, state in states:
        places[place][state] += 1
    if places:
        yield f"in all: {_numbers(sum(places.values(), Counter()))}"
    yield from (f"{shown(place)}: {_numbers(counts)}"
                for place, counts in sorted(places.items()) if place)


def _numbers(counts: Counter[str]) -> str:
    return ", ".join(f"{number:,} {state}" for state, number in counts.most_common())
