"""The worked patterns of docs/PLAN.md: what the reference planner must give before a program is compared with it."""

from collections.abc import Iterator

from plan import Refusal, fill, given_order, least_degree, listing, plan
from sheet import Sheet

RING_LISTING = """\
plan 4 9
1 1 2 : 2 4
2 2 3 : 3 4
3 3 4 : 4
4 4 0 :
"""


def self_check() -> list[str]:
    """The worked patterns for which the planner gives something else than docs/PLAN.md."""
    return [name for name, holds in claims() if not holds]


def claims() -> Iterator[tuple[str, bool]]:
    """Each pattern by name, and whether all that docs/PLAN.md says of it holds."""
    yield from least_degree_claims()
    yield from given_order_claims()


def least_degree_claims() -> Iterator[tuple[str, bool]]:
    one = plan(Sheet(1), least_degree)
    yield "one node", one.order == [1] and len(one.places) == 1

    three = plan(Sheet(3, [(1, 3)]), least_degree)
    roots = [three.label(position) for position, parent in three.parents.items() if parent is None]
    yield "three nodes", three.order == [2, 1, 3] and roots == [2, 3] and len(three.places) == 4

    path = plan(Sheet(4, [(1, 2), (2, 3), (3, 4)]), least_degree)
    yield "path", path.order == [1, 2, 3, 4] and len(path.places) == 7 and fill(path) == []

    ring = plan(Sheet(4, [(1, 2), (2, 3), (3, 4), (4, 1)]), least_degree)
    yield "ring", ring.order == [1, 2, 3, 4] and len(ring.places) == 9 and fill(ring) == [(2, 4)]
    yield "ring, its listing", listing(ring) == RING_LISTING

    leaves_first = plan(hub(4), least_degree)
    yield "hub by least degree", leaves_first.order == [2, 3, 4, 1, 5] and len(leaves_first.places) == 9


def given_order_claims() -> Iterator[tuple[str, bool]]:
    hub_first = plan(hub(4), given_order(hub(4)))
    yield "hub by given order", len(hub_first.places) == 15 and len(fill(hub_first)) == 6
    yield "hub with 126 leaves", len(plan(hub(126), given_order(hub(126))).places) == 8_128
    yield "hub with 127 leaves", plan(hub(127), given_order(hub(127))) is Refusal.TOO_MANY_PLACES

    yield "no order words", given_order(Sheet(1)) is Refusal.NO_ORDER_WORDS
    two_first = given_order(Sheet(2, order=[2, 1]))
    yield "labels not among the order words", plan(Sheet(4), two_first).order == [2, 1, 3, 4]


def hub(leaves: int) -> Sheet:
    """Node 1 linked to all others, and order words that name it first."""
    labels = list(range(1, leaves + 2))
    return Sheet(leaves + 1, [(1, label) for label in labels[1:]], labels)
