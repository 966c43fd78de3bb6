"""Makes site sheets, whole and damaged, on which two readers of sheets can be compared.

First come the edges of the format, by hand; then all cuts, all flips and all inserted kinds around one small sheet;
then, until there are enough, sheets drawn by a seeded generator. Most are small, so that a run is short.
"""

from collections.abc import Callable, Iterator
from dataclasses import dataclass
from itertools import chain, combinations, islice
from random import Random

from sheet import MOST_BYTES, MOST_LINKS, MOST_NODES, SPARE_BITS, Kind

Named = tuple[str, bytes]

UNKNOWN_KINDS = [kind for kind in range(16) if kind not in SPARE_BITS]
FEWEST_NODES_FOR_MOST_LINKS = 92  # 91 nodes have 4,095 pairs


def sheets(count: int, seed: int) -> Iterator[Named]:
    """`count` byte strings, each with a short name that says how it was made."""
    return islice(chain(edges(), around_a_small_sheet(), drawn_sheets(Random(seed))), count)


# Words


def head(nodes: int) -> int:
    return Kind.HEAD << 28 | nodes


def link(first: int, second: int) -> int:
    return Kind.LINK << 28 | first << 10 | second


def order(label: int) -> int:
    return Kind.ORDER << 28 | label


def end(words_before: int) -> int:
    return Kind.END << 28 | words_before


def kind_of(word: int) -> int:
    return word >> 28


def packed(words: list[int]) -> bytes:
    return b"".join(word.to_bytes(4, "little") for word in words)


def closed(words: list[int]) -> list[int]:
    """The words and an end that counts them."""
    return [*words, end(len(words))]


def sheet_words(n: int, pairs: list[tuple[int, int]], labels: list[int]) -> list[int]:
    return closed([head(n), *(link(*pair) for pair in pairs), *map(order, labels)])


def places_of(words: list[int], kind: Kind) -> list[int]:
    return [place for place, word in enumerate(words) if kind_of(word) == kind]


# Edges of the format


def edges() -> Iterator[Named]:
    for name, words in chain(whole_edges(), first_words(), middle_words(), ends()):
        yield name, packed(words)
    yield from loose_bytes()
    for name, words in long_edges():
        yield name, packed(words)
    yield from overlong_edges()


def whole_edges() -> Iterator[tuple[str, list[int]]]:
    yield "one node", sheet_words(1, [], [])
    yield "one node, ordered", sheet_words(1, [], [1])
    yield "two nodes, linked", sheet_words(2, [(1, 2)], [])
    yield "two nodes, linked high label first, ordered", sheet_words(2, [(2, 1)], [2, 1])
    yield "a ring of four", sheet_words(4, [(1, 2), (2, 3), (3, 4), (4, 1)], [])
    yield "a path of four, ordered", sheet_words(4, [(1, 2), (2, 3), (3, 4)], [4, 3, 2, 1])
    yield "a star with falling labels", sheet_words(12, [(label, 1) for label in range(12, 1, -1)], [])
    yield "512 nodes, no links", sheet_words(MOST_NODES, [], [])
    yield "512 nodes, one link of the last two", sheet_words(MOST_NODES, [(512, 511)], [])


def first_words() -> Iterator[tuple[str, list[int]]]:
    for nodes in (0, 1, 511, 512, 513, 1023):
        yield f"only a head of {nodes}", [head(nodes)]
        yield f"a head of {nodes} and an end", closed([head(nodes)])
    yield "a head of 1024, which sets a spare bit", closed([head(1024)])
    yield "a head of 513 with a spare bit", closed([head(513) | 1 << 27])
    yield "a head of 0 with an end counting wrong", [head(0), end(0)]
    for kind in UNKNOWN_KINDS:
        yield f"word 0 of kind {kind}", closed([kind << 28 | 3])
    yield "word 0 a link", closed([link(1, 2)])
    yield "word 0 a link of no node to itself", closed([link(0, 0)])
    yield "word 0 a link with a spare bit", closed([link(1, 2) | 1 << 20])
    yield "word 0 an order word", closed([order(1)])
    yield "word 0 an order word with a spare bit", closed([order(1) | 1 << 10])
    yield "word 0 an end counting 0", [end(0)]
    yield "word 0 an end counting 1", [end(1)]
    yield "links and an end without a head", closed([link(1, 2), link(2, 3)])


def middle_words() -> Iterator[tuple[str, list[int]]]:
    linked = [head(3), link(1, 2)]
    ordered = [*linked, order(3)]
    for name, word in (
        ("a second head", head(3)),
        ("a second head of 0", head(0)),
        ("a second head of 513", head(513)),
        ("a second head with a spare bit", head(3) | 1 << 12),
        ("a link again", link(1, 2)),
        ("a link again, reversed", link(2, 1)),
        ("a link again, with a spare bit", link(1, 2) | 1 << 27),
        ("a link to label 0", link(0, 1)),
        ("a link from label 0", link(1, 0)),
        ("a link to label n + 1", link(1, 4)),
        ("a link from label n + 1", link(4, 1)),
        ("a link to label 1023", link(1, 1023)),
        ("a self link", link(3, 3)),
        ("a self link of label 0", link(0, 0)),
        ("a self link of label n + 1", link(4, 4)),
        ("a self link of a linked node", link(1, 1)),
        ("an order word of label 0", order(0)),
        ("an order word of label n + 1", order(4)),
        ("an order word of label 1023", order(1023)),
        ("an order word of label 3 again", order(3)),
        ("an order word of label 3 again, with a spare bit", order(3) | 1 << 27),
        ("a word of kind 0", 0),
        ("a word of kind 14 with all bits", 0xEFFF_FFFF),
    ):
        yield f"{name}, after a link", closed([*linked, word])
        yield f"{name}, after an order word", closed([*ordered, word])
        yield f"{name}, after the end", [*closed(linked), word]
        yield f"{name}, and no end", [*ordered, word]
    yield "one order word more than nodes", closed([*linked, order(3), order(1), order(2), order(1)])
    yield "one order word more than nodes, of label n + 1", closed([*linked, order(3), order(1), order(2), order(4)])
    yield "a link between two order words", closed([head(2), order(1), link(1, 2), order(2)])
    yield "label 513 of 512 nodes", closed([head(512), link(513, 1)])


def ends() -> Iterator[tuple[str, list[int]]]:
    whole = [head(2), link(1, 2), order(2), order(1)]
    partial = whole[:-1]
    yield "no end", whole
    yield "no end, and order words missing", partial
    yield "order words missing", closed(partial)
    for count in (0, 2, 4, 3 | 1 << 27, 0x0FFF_FFFF):
        yield f"order words missing, and an end counting {count} for 3", [*partial, end(count)]
    for count in (0, 3, 5, 4 | 1 << 10, 4 | 1 << 27, 0x0FFF_FFFF):
        yield f"an end counting {count} for 4", [*whole, end(count)]
        yield f"an end counting {count} for 4, then the right one", closed([*whole, end(count)])
    yield "the end twice", [*closed(whole), end(4)]
    yield "an end that counts the end", closed(closed(whole))
    yield "a sheet twice", closed(whole) * 2


def loose_bytes() -> Iterator[Named]:
    yield "no bytes", b""
    whole = packed(sheet_words(2, [(1, 2)], []))
    for count in (1, 2, 3):
        for byte in (b"\x00", b"\x0a", b"\xff"):
            yield f"only {count} bytes {byte.hex()}", byte * count
            yield f"{count} bytes {byte.hex()} after the end", whole + byte * count
            yield f"{count} bytes {byte.hex()} after a head", whole[:4] + byte * count
    yield "four bytes 00 after the end", whole + bytes(4)
    yield "a line feed after a word after the end", whole + packed([end(2)]) + b"\n"


def long_edges() -> Iterator[tuple[str, list[int]]]:
    """Sheets with all the links that a sheet can have."""
    pairs = list(combinations(range(1, MOST_NODES + 1), 2))
    linked = [head(MOST_NODES), *(link(*pair) for pair in pairs[:MOST_LINKS])]
    ordered = [*linked, *map(order, range(MOST_NODES, 0, -1))]
    another = link(*pairs[MOST_LINKS])

    yield "the longest sheet", closed(ordered)
    yield "4,096 links, no order", closed(linked)
    yield "4,095 links", closed(linked[:-1])
    for name, word in (
        ("a 4,097th link", another),
        ("a 4,097th link with a spare bit", another | 1 << 20),
        ("a 4,097th link of label 0", link(0, 1)),
        ("a 4,097th link, a self link", link(7, 7)),
        ("a 4,097th link, there already", linked[1]),
        ("a head after 4,096 links", head(MOST_NODES)),
        ("a word of kind 4 after 4,096 links", 4 << 28),
    ):
        yield name, closed([*linked, word])
    yield "a 4,097th link and no end", [*linked, another]
    yield "a 4,097th link before all order words", closed([*linked, another, *ordered[len(linked) :]])
    yield "a 4,097th link after all order words", closed([*ordered, another])
    yield "a 4,097th link after an order word", closed([*linked, order(1), another])
    yield "a 513th order word, there already", closed([*ordered, order(1)])
    yield "a 513th order word, of label 513", closed([*ordered, order(513)])
    yield "511 of 512 order words", closed(ordered[:-1])
    yield "the longest sheet without its end", ordered
    yield "the longest sheet, an end counting 4,608", [*ordered, end(4_608)]


def overlong_edges() -> Iterator[Named]:
    """Strings about as long as, or longer than, what a reader looks at."""
    pairs = list(combinations(range(1, MOST_NODES + 1), 2))[:MOST_LINKS]
    longest = packed(sheet_words(MOST_NODES, pairs, list(range(1, MOST_NODES + 1))))
    small = packed(sheet_words(3, [(1, 2)], []))

    yield "the longest sheet, one byte short", longest[:-1]
    for count in (1, 2, 3, 4, 5, 8, 4_000):
        yield f"the longest sheet and {count} bytes 00", longest + bytes(count)
        yield f"the longest sheet and {count} bytes ff", longest + b"\xff" * count
    yield "the longest sheet and a spare bit", longest + packed([order(1) | 1 << 10])
    yield "the longest sheet twice", longest * 2
    yield "a small sheet and 20,000 bytes", small + bytes(20_000)
    yield "a small sheet and 20,000 ends", small + packed([end(3)]) * 20_000
    yield "20,000 bytes 00", bytes(20_000)
    yield "100,000 bytes 11", b"\x11" * 100_000
    yield "as many heads as are looked at", packed([head(1)]) * (MOST_BYTES // 4)
    yield "as many links as are looked at, and more", longest[:4] + packed([link(*pair) for pair in pairs]) * 2


# One small sheet, changed in each place


def around_a_small_sheet() -> Iterator[Named]:
    words = sheet_words(3, [(1, 2), (3, 2)], [2, 3, 1])
    data = packed(words)
    for length in range(len(data)):
        yield f"a small sheet cut to {length} bytes", data[:length]
    for bit in range(8 * len(data)):
        yield f"a small sheet with bit {bit} flipped", with_bit_flipped(data, bit)
    for place in range(len(words) + 1):
        for kind in range(16):
            inserted = [*words[:place], kind << 28 | place, *words[place:]]
            yield f"a small sheet with kind {kind} inserted at {place}", packed(inserted)


def with_bit_flipped(data: bytes, bit: int) -> bytes:
    flipped = bytearray(data)
    flipped[bit // 8] ^= 1 << bit % 8
    return bytes(flipped)


# Whole sheets, drawn


@dataclass(frozen=True)
class Draft:
    """A whole sheet that is yet to be damaged, or not."""

    name: str
    n: int
    words: list[int]


def draft(rng: Random, n: int, link_count: int, ordered: bool) -> Draft:
    pairs = rng.sample(list(combinations(range(1, n + 1), 2)), link_count)
    pairs = [pair if rng.random() < 0.5 else pair[::-1] for pair in pairs]
    labels = rng.sample(range(1, n + 1), n) if ordered else []
    name = f"{n} nodes, {link_count} links, {'ordered' if ordered else 'no order'}"
    return Draft(name, n, sheet_words(n, pairs, labels))


def draft_between(rng: Random, fewest_nodes: int, most_nodes: int, most_links: int) -> Draft:
    n = rng.randint(fewest_nodes, most_nodes)
    link_count = rng.randint(0, min(most_links, n * (n - 1) // 2))
    return draft(rng, n, link_count, rng.random() < 0.5)


def small_draft(rng: Random) -> Draft:
    return draft_between(rng, 1, 9, 12)


def middling_draft(rng: Random) -> Draft:
    return draft_between(rng, 10, 60, 150)


def large_draft(rng: Random) -> Draft:
    return draft_between(rng, 200, MOST_NODES, MOST_LINKS)


def full_draft(rng: Random) -> Draft:
    n = rng.choice((FEWEST_NODES_FOR_MOST_LINKS, rng.randint(100, MOST_NODES), MOST_NODES))
    return draft(rng, n, MOST_LINKS, rng.random() < 0.5)


def any_draft(rng: Random) -> Draft:
    sizes = (small_draft, middling_draft, large_draft, full_draft)
    (size,) = rng.choices(sizes, weights=(950, 40, 5, 5))
    return size(rng)


# Words, drawn


def edge_label(rng: Random, n: int) -> int:
    """A label of a node, for the most part, or one just outside or far outside."""
    return rng.choice((0, 1, n, n + 1, rng.randint(1, n), rng.randint(1, n), rng.randrange(1024)))


def edge_word(rng: Random, n: int, place: int) -> int:
    """A word of any kind at the edges of what is right, which often breaks several rules at once."""
    word = rng.choice((
        head(rng.choice((0, 1, n, MOST_NODES, MOST_NODES + 1, 1023))),
        link(edge_label(rng, n), edge_label(rng, n)),
        link(edge_label(rng, n), edge_label(rng, n)),
        order(edge_label(rng, n)),
        order(edge_label(rng, n)),
        end(rng.choice((0, place, place + 1))),
        rng.choice(UNKNOWN_KINDS) << 28 | rng.getrandbits(28),
    ))
    return word | 1 << rng.randrange(10, 28) if rng.random() < 0.15 else word


def any_place(rng: Random, words: list[int]) -> int:
    return rng.randrange(len(words))


def place_for_insertion(rng: Random, words: list[int]) -> int:
    return rng.randint(0, len(words))


# Damage to words: each changes the list that it is given


def drop(rng: Random, n: int, words: list[int]) -> None:
    del words[any_place(rng, words)]


def double(rng: Random, n: int, words: list[int]) -> None:
    place = any_place(rng, words)
    words.insert(place, words[place])


def swap(rng: Random, n: int, words: list[int]) -> None:
    one, other = any_place(rng, words), any_place(rng, words)
    words[one], words[other] = words[other], words[one]


def insert(rng: Random, n: int, words: list[int]) -> None:
    place = place_for_insertion(rng, words)
    words.insert(place, edge_word(rng, n, place))


def replace(rng: Random, n: int, words: list[int]) -> None:
    place = any_place(rng, words)
    words[place] = edge_word(rng, n, place)


def set_spare_bit(rng: Random, n: int, words: list[int]) -> None:
    words[any_place(rng, words)] |= 1 << rng.randrange(10, 28)


def insert_unknown_kind(rng: Random, n: int, words: list[int]) -> None:
    words.insert(place_for_insertion(rng, words), rng.choice(UNKNOWN_KINDS) << 28 | rng.getrandbits(28))


def insert_head(rng: Random, n: int, words: list[int]) -> None:
    words.insert(place_for_insertion(rng, words), head(rng.choice((0, 1, n, MOST_NODES + 1))))


def change_head_count(rng: Random, n: int, words: list[int]) -> None:
    words[rng.choice(places_of(words, Kind.HEAD))] = head(rng.choice((0, max(n - 1, 0), n + 1, 512, 513, 1023)))


def repeat_link(rng: Random, n: int, words: list[int]) -> None:
    places = places_of(words, Kind.LINK)
    words.insert(rng.choice(places) + 1, words[rng.choice(places)])


def repeat_link_reversed(rng: Random, n: int, words: list[int]) -> None:
    places = places_of(words, Kind.LINK)
    word = words[rng.choice(places)]
    first, second = word >> 10 & 1023, word & 1023
    words.insert(rng.choice(places) + 1, link(second, first))


def make_self_link(rng: Random, n: int, words: list[int]) -> None:
    label = rng.choice((rng.randint(1, n), rng.randint(1, n), 0, n + 1))
    words[rng.choice(places_of(words, Kind.LINK))] = link(label, label)


def misname_in_link(rng: Random, n: int, words: list[int]) -> None:
    labels = [rng.choice((0, n + 1)), rng.randint(1, n)]
    rng.shuffle(labels)
    words[rng.choice(places_of(words, Kind.LINK))] = link(*labels)


def misname_in_order(rng: Random, n: int, words: list[int]) -> None:
    words[rng.choice(places_of(words, Kind.ORDER))] = order(rng.choice((0, n + 1)))


def repeat_order_label(rng: Random, n: int, words: list[int]) -> None:
    places = places_of(words, Kind.ORDER)
    words[rng.choice(places)] = words[rng.choice(places)]


def drop_order_words(rng: Random, n: int, words: list[int]) -> None:
    places = places_of(words, Kind.ORDER)
    kept = rng.randrange(len(places))
    for place in reversed(places[kept:]):
        del words[place]


def insert_late_link(rng: Random, n: int, words: list[int]) -> None:
    place = rng.choice(places_of(words, Kind.ORDER)) + 1
    words.insert(place, link(edge_label(rng, n), edge_label(rng, n)))


def miscount(rng: Random, n: int, words: list[int]) -> None:
    place = rng.choice(places_of(words, Kind.END))
    words[place] = end(rng.choice((0, max(place - 1, 0), place + 1, place | 1 << 27, rng.getrandbits(28))))


def add_after_end(rng: Random, n: int, words: list[int]) -> None:
    for _ in range(rng.randint(1, 3)):
        words.append(edge_word(rng, n, len(words)))


def mend_count(words: list[int]) -> None:
    """Makes each end count the words before it, so that other faults come to light."""
    for place in places_of(words, Kind.END):
        words[place] = end(place)


@dataclass(frozen=True)
class Damage:
    """A way to damage a sheet, and the kind of word that it needs for that."""

    name: str
    needs: Kind | None
    apply: Callable[[Random, int, list[int]], None]


DAMAGES = [
    Damage("a word dropped", None, drop),
    Damage("a word doubled", None, double),
    Damage("two words swapped", None, swap),
    Damage("a word inserted", None, insert),
    Damage("a word replaced", None, replace),
    Damage("a spare bit set", None, set_spare_bit),
    Damage("an unknown kind inserted", None, insert_unknown_kind),
    Damage("a head inserted", None, insert_head),
    Damage("another number of nodes", Kind.HEAD, change_head_count),
    Damage("a link repeated", Kind.LINK, repeat_link),
    Damage("a link repeated in reverse", Kind.LINK, repeat_link_reversed),
    Damage("a self link", Kind.LINK, make_self_link),
    Damage("a link of label 0 or n + 1", Kind.LINK, misname_in_link),
    Damage("an order word of label 0 or n + 1", Kind.ORDER, misname_in_order),
    Damage("an order label repeated", Kind.ORDER, repeat_order_label),
    Damage("order words dropped", Kind.ORDER, drop_order_words),
    Damage("a link after an order word", Kind.ORDER, insert_late_link),
    Damage("a wrong end count", Kind.END, miscount),
    Damage("words after the end", Kind.END, add_after_end),
]


def fits(damage: Damage, words: list[int]) -> bool:
    return damage.needs is None or damage.needs in map(kind_of, words)


# Damaged sheets, drawn


def whole(rng: Random) -> Named:
    sheet = any_draft(rng)
    return f"whole: {sheet.name}", packed(sheet.words)


def damaged(rng: Random) -> Named:
    sheet = any_draft(rng)
    words = list(sheet.words)
    steps = []
    for _ in range(rng.choice((1, 1, 2))):
        damage = rng.choice([damage for damage in DAMAGES if fits(damage, words)])
        damage.apply(rng, sheet.n, words)
        steps.append(damage.name)
    if rng.random() < 0.5:
        mend_count(words)
        steps.append("the count mended")
    return f"{', '.join(steps)}: {sheet.name}", packed(words)


def cut(rng: Random) -> Named:
    name, data = rng.choice((whole, damaged))(rng)
    length = rng.randint(0, len(data))
    return f"cut to {length} bytes, {name}", data[:length]


def flipped(rng: Random) -> Named:
    name, data = whole(rng)
    bit = rng.randrange(8 * len(data))
    return f"bit {bit} flipped, {name}", with_bit_flipped(data, bit)


def lengthened(rng: Random) -> Named:
    name, data = rng.choice((whole, damaged))(rng)
    count = rng.randint(1, 9)
    return f"{count} more bytes, {name}", data + rng.randbytes(count)


def crowded(rng: Random) -> Named:
    """A 4,097th link, before the order words or among them, and often another fault that competes with it."""
    sheet = full_draft(rng)
    words = list(sheet.words)
    place = rng.choice((MOST_LINKS + 1, MOST_LINKS + 1, rng.randrange(MOST_LINKS + 1, len(words))))
    word = link(edge_label(rng, sheet.n), edge_label(rng, sheet.n))
    words.insert(place, word | 1 << 20 if rng.random() < 0.1 else word)
    mend_count(words)
    return f"a 4,097th link: {sheet.name}", packed(words)


def overlong(rng: Random) -> Named:
    """More bytes than a reader looks at, with a sheet before them."""
    name, data = rng.choice((whole, damaged))(rng)
    count = rng.randint(MOST_BYTES, 2 * MOST_BYTES)
    return f"{count} more bytes, {name}", data + rng.randbytes(count)


def loose_words(rng: Random) -> Named:
    n = rng.randint(1, 4)
    count = rng.randint(1, 12)
    words = [head(n), *(edge_word(rng, n, place) for place in range(1, count))]
    return f"a head of {n} and {count - 1} words at the edges", packed(words)


def random_bytes(rng: Random) -> Named:
    count = rng.randint(1, 40)
    return f"{count} random bytes", rng.randbytes(count)


def drawn_sheets(rng: Random) -> Iterator[Named]:
    makers = (whole, damaged, cut, flipped, lengthened, crowded, overlong, loose_words, random_bytes)
    weights = (120, 600, 60, 80, 40, 20, 6, 100, 20)
    while True:
        (make,) = rng.choices(makers, weights)
        yield make(rng)
