"""Makes whole sheets of up to 512 nodes on which two planners can be compared.

First come plain shapes and the edges of what a plan holds, by hand; then, until there are enough, patterns drawn by a
seeded generator. Most of those are small, so that a run is short.
"""

from collections.abc import Iterator
from dataclasses import dataclass
from itertools import chain as chained
from itertools import combinations, islice, product
from random import Random

from plan import MOST_PLACES, Plan, least_degree, plan
from sheet import MOST_LINKS, MOST_NODES, Sheet
from sheets import Named, packed, sheet_words

Pair = tuple[int, int]

MOST_COMPLETE = 91  # a complete pattern of 92 nodes has 4,186 links
# With fewer nodes, 4,096 random links may not pass 8,192 places; with more, the labels left may be too few for a forest
# that makes up what a random pattern lacks.
LIMIT_NODES = range(150, 257)


@dataclass(frozen=True)
class Pattern:
    name: str
    n: int
    pairs: list[Pair]


def patterns(count: int, seed: int) -> Iterator[Named]:
    """`count` sheets, each with a short name that says how it was made."""
    rng = Random(seed)
    return islice(chained(map(plain_sheet, chained(shapes(), limits(rng))), drawn_sheets(rng)), count)


def plain_sheet(pattern: Pattern) -> Named:
    return pattern.name, packed(sheet_words(pattern.n, pattern.pairs, []))


# Shapes


def loose(n: int) -> Pattern:
    return Pattern(f"no links, n = {n}", n, [])


def chain(n: int) -> Pattern:
    return Pattern(f"chain of {n}", n, [(label, label + 1) for label in range(1, n)])


def ring(n: int) -> Pattern:
    """A ring of three nodes or more."""
    return Pattern(f"ring of {n}", n, [*chain(n).pairs, (n, 1)])


def grid(rows: int, columns: int) -> Pattern:
    """A grid whose labels run along the rows, one row after the other."""
    labels = range(1, rows * columns + 1)
    along = [(label, label + 1) for label in labels if label % columns != 0]
    across = [(label, label + columns) for label in labels[:-columns]]
    return Pattern(f"grid of {rows} x {columns}", rows * columns, along + across)


def star(n: int, hub: int) -> Pattern:
    pairs = [(hub, label) for label in range(1, n + 1) if label != hub]
    return Pattern(f"star of {n} around {hub}", n, pairs)


def wheel(n: int) -> Pattern:
    """A ring with node n, the last, linked to all of it."""
    return Pattern(f"wheel of {n}", n, ring(n - 1).pairs + star(n, n).pairs)


def complete(n: int) -> Pattern:
    return Pattern(f"complete pattern of {n}", n, all_pairs(n))


def two_sided(first: int, second: int) -> Pattern:
    """Every one of the first labels linked to every one of the others."""
    pairs = list(product(range(1, first + 1), range(first + 1, first + second + 1)))
    return Pattern(f"{first} nodes linked to {second}", first + second, pairs)


def all_pairs(n: int) -> list[Pair]:
    return list(combinations(range(1, n + 1), 2))


# Random shapes


def random_pattern(rng: Random, n: int, links: int) -> Pattern:
    return Pattern(f"{n} nodes, {links} random links", n, rng.sample(all_pairs(n), links))


def random_tree(rng: Random, n: int) -> Pattern:
    return Pattern(f"random tree of {n}", n, [(rng.randrange(1, label), label) for label in range(2, n + 1)])


def random_forest(rng: Random, places: int, most_nodes: int) -> Pattern:
    """A tree and loose nodes: without fill, so that the places are the nodes and the links."""
    n = rng.randint(places // 2 + 1, min(places, most_nodes)) if places > 0 else 0
    links = places - n
    return Pattern(f"forest of {n} nodes, {links} links", n, random_tree(rng, links + 1).pairs)


def random_hubs(rng: Random, n: int, hubs: int) -> Pattern:
    """Every node but the hubs linked to some of the hubs, which carry the lowest labels."""
    pairs = []
    for label in range(hubs + 1, n + 1):
        pairs += [(hub, label) for hub in rng.sample(range(1, hubs + 1), rng.randint(1, hubs))]
    return Pattern(f"{n} nodes with {hubs} hubs", n, pairs)


def nearly_complete(rng: Random, n: int, missing: int) -> Pattern:
    pairs = all_pairs(n)
    kept = rng.sample(pairs, max(len(pairs) - missing, 0))
    return Pattern(f"complete pattern of {n} but for {missing} links", n, kept)


# Labels


def relabelled(rng: Random, pattern: Pattern) -> Pattern:
    label_for = dict(enumerate(rng.sample(range(1, pattern.n + 1), pattern.n), start=1))
    return Pattern(f"{pattern.name}, relabelled", pattern.n, renamed(pattern.pairs, label_for))


def side_by_side(rng: Random, first: Pattern, second: Pattern) -> Pattern:
    """Both patterns unlinked on one sheet, with mixed labels.

    Each pattern keeps the order of its labels. So under least degree it has the fill that it has alone.
    """
    n = first.n + second.n
    labels_of_first = sorted(rng.sample(range(1, n + 1), first.n))
    labels_of_second = sorted(set(range(1, n + 1)).difference(labels_of_first))
    pairs = [
        *renamed(first.pairs, dict(enumerate(labels_of_first, start=1))),
        *renamed(second.pairs, dict(enumerate(labels_of_second, start=1))),
    ]
    return Pattern(f"{first.name} beside {second.name}", n, pairs)


def renamed(pairs: list[Pair], label_for: dict[int, int]) -> list[Pair]:
    return [(label_for[first], label_for[second]) for first, second in pairs]


# Around the most places that a plan can have


def places_of(n: int, pairs: list[Pair]) -> int | None:
    """The number of places under least degree, or none if a plan can't have so many."""
    made = plan(Sheet(n, pairs), least_degree)
    return len(made.places) if isinstance(made, Plan) else None


def pattern_of_places(rng: Random, places: int) -> Pattern:
    """A pattern of just so many places, which must be 8,192 or slightly more."""
    core = fullest_pattern(rng, rng.choice(LIMIT_NODES))
    lacking = places - places_of(core.n, core.pairs)
    whole = side_by_side(rng, core, random_forest(rng, lacking, MOST_NODES - core.n))
    return Pattern(f"{places} places: {whole.name}", whole.n, whole.pairs)


def fullest_pattern(rng: Random, n: int) -> Pattern:
    """A random pattern that a plan can hold, though not with one more link, the next one drawn."""
    pairs = rng.sample(all_pairs(n), MOST_LINKS)
    fitting, passing = 0, len(pairs)
    while passing - fitting > 1:
        middle = (fitting + passing) // 2
        if places_of(n, pairs[:middle]) is None:
            passing = middle
        else:
            fitting = middle
    return Pattern(f"{n} nodes, {fitting} random links", n, pairs[:fitting])


# Sheets by hand


def shapes() -> Iterator[Pattern]:
    for n in (1, 2, 3, MOST_NODES):
        yield loose(n)
    for n in (2, 3, 4, 10, MOST_NODES):
        yield chain(n)
    for n in (3, 4, 5, 6, MOST_NODES):
        yield ring(n)
    for rows, columns in ((2, 2), (2, 3), (3, 2), (3, 3), (4, 7), (2, 256), (22, 22), (16, 32), (32, 16)):
        yield grid(rows, columns)
    for n in (5, 12, MOST_NODES):
        for hub in (1, n // 2, n):
            yield star(n, hub)
        yield wheel(n)
    for n in (2, 3, 4, 10, 90, MOST_COMPLETE):
        yield complete(n)
    for first, second in ((2, 2), (3, 3), (2, 510), (510, 2), (8, 504), (64, 64)):
        yield two_sided(first, second)
    yield Pattern("three nodes, the outer two linked", 3, [(1, 3)])
    yield Pattern("a link of the last two nodes", MOST_NODES, [(MOST_NODES, MOST_NODES - 1)])
    yield Pattern("two nodes linked through the last", MOST_NODES, [(1, MOST_NODES), (MOST_NODES, 2)])
    yield Pattern("complete pattern and loose nodes", MOST_NODES, all_pairs(MOST_COMPLETE))


def limits(rng: Random) -> Iterator[Pattern]:
    for places in (MOST_PLACES, MOST_PLACES + 1, MOST_PLACES + 2):
        yield pattern_of_places(rng, places)
    for n in (92, 128, 129, 150, 256, MOST_NODES):
        yield random_pattern(rng, n, MOST_LINKS)


# Sheets, drawn


def small_pattern(rng: Random) -> Pattern:
    n = rng.randint(1, 12)
    return random_pattern(rng, n, rng.randint(0, n * (n - 1) // 2))


def middling_pattern(rng: Random) -> Pattern:
    n = rng.randint(13, 90)
    return random_pattern(rng, n, rng.randint(0, rng.choice((2 * n, n * (n - 1) // 2))))


def sparse_pattern(rng: Random) -> Pattern:
    """About as many links as can be planned: twice the nodes pass the limit if the nodes are many."""
    n = rng.randint(100, MOST_NODES)
    return random_pattern(rng, n, rng.randint(n // 2, 2 * n))


def dense_pattern(rng: Random) -> Pattern:
    n = rng.randint(92, MOST_NODES)
    return random_pattern(rng, n, rng.randint(2 * n, MOST_LINKS))


def crowded_pattern(rng: Random) -> Pattern:
    return nearly_complete(rng, rng.randint(3, MOST_COMPLETE), rng.randint(1, 60))


def tree_pattern(rng: Random) -> Pattern:
    return relabelled(rng, random_tree(rng, rng.choice((rng.randint(2, 40), MOST_NODES))))


def shaped_pattern(rng: Random) -> Pattern:
    side = rng.randint(2, 22)
    shape = rng.choice((
        chain(rng.randint(2, 100)),
        ring(rng.randint(3, 100)),
        grid(side, rng.randint(2, min(MOST_NODES // side, 2 * side))),
        wheel(rng.randint(4, 100)),
        two_sided(rng.randint(1, 20), rng.randint(1, 20)),
    ))
    return relabelled(rng, shape)


def hub_pattern(rng: Random) -> Pattern:
    n = rng.choice((rng.randint(10, 60), rng.randint(100, MOST_NODES)))
    return relabelled(rng, random_hubs(rng, n, rng.randint(1, 8)))


def double_pattern(rng: Random) -> Pattern:
    makers = (small_pattern, middling_pattern, shaped_pattern)
    return side_by_side(rng, rng.choice(makers)(rng), rng.choice(makers[:2])(rng))


def limit_pattern(rng: Random) -> Pattern:
    return pattern_of_places(rng, MOST_PLACES + rng.choice((0, 0, 1, 1, 2, 5)))


def drawn_pattern(rng: Random) -> Pattern:
    makers = (
        small_pattern,
        middling_pattern,
        sparse_pattern,
        dense_pattern,
        crowded_pattern,
        tree_pattern,
        shaped_pattern,
        hub_pattern,
        double_pattern,
        limit_pattern,
    )
    (make,) = rng.choices(makers, weights=(24, 18, 16, 4, 4, 6, 12, 8, 6, 4))
    return make(rng)


def drawn_sheets(rng: Random) -> Iterator[Named]:
    while True:
        yield jumbled_sheet(rng, drawn_pattern(rng))


def jumbled_sheet(rng: Random, pattern: Pattern) -> Named:
    """The pattern with its links in any order and either way round, now and then with order words."""
    pairs = [pair if rng.random() < 0.5 else pair[::-1] for pair in rng.sample(pattern.pairs, len(pattern.pairs))]
    labels = rng.sample(range(1, pattern.n + 1), pattern.n) if rng.random() < 0.25 else []
    return f"{pattern.name}{', ordered' if labels else ''}", packed(sheet_words(pattern.n, pairs, labels))
