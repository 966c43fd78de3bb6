"""Reads site sheets by docs/SHEET.md alone: a second reader, against which `sheetcheck` is compared.

    python3 reference/sheet.py < FILE

prints what `sheetcheck` must print for FILE and ends with the status that it must end with.
"""

import sys
from dataclasses import dataclass, field
from enum import Enum, IntEnum, StrEnum
from itertools import count

BYTES_IN_A_WORD = 4
MOST_NODES = 512
MOST_LINKS = 4_096
MOST_BYTES = 18_444  # the longest sheet and one word more: no later byte changes what is read


class Kind(IntEnum):
    HEAD = 1
    LINK = 2
    ORDER = 3
    END = 15


SPARE_BITS = {
    Kind.HEAD: 0x0FFF_FC00,
    Kind.LINK: 0x0FF0_0000,
    Kind.ORDER: 0x0FFF_FC00,
    Kind.END: 0,
}


class Layer(StrEnum):
    WORD = "word"
    SHEET = "sheet"
    RECORD = "record"


class Rule(Enum):
    """A rule that a sheet can break: the number and the layer of the fault, and the rule's text."""

    WHOLE_WORD = 1, Layer.WORD, "a word has 4 bytes"
    KNOWN_KIND = 2, Layer.WORD, "its kind is not 1, 2, 3 or 15"
    SPARE_BITS_CLEAR = 3, Layer.WORD, "a spare bit is set"
    HEAD_FIRST = 4, Layer.SHEET, "a sheet begins with a head"
    HEAD_COUNT = 4, Layer.SHEET, "a head counts 1 to 512 nodes"
    ONE_HEAD = 5, Layer.SHEET, "a sheet has one head"
    LINKS_BEFORE_ORDER = 5, Layer.SHEET, "links stand before order words"
    END_LAST = 5, Layer.SHEET, "nothing follows the end"
    LINKS_AT_MOST = 6, Layer.SHEET, "a sheet has at most 4096 links"
    END_COUNT = 7, Layer.SHEET, "the end counts the words before it"
    END_PRESENT = 7, Layer.SHEET, "a sheet ends with an end word"
    ORDER_WHOLE = 8, Layer.SHEET, "order words name every node or none"
    LABEL_OF_A_NODE = 9, Layer.RECORD, "a label is not one of the nodes"
    TWO_NODES = 10, Layer.RECORD, "a link joins two different nodes"
    LINKED_ONCE = 11, Layer.RECORD, "its nodes are linked already"
    ORDERED_ONCE = 12, Layer.RECORD, "its node has a place in the order already"

    def __init__(self, number: int, layer: Layer, text: str) -> None:
        self.number = number
        self.layer = layer
        self.text = text


@dataclass
class Sheet:
    """What a sheet says: the number of nodes, and the links and the order labels as they stand."""

    n: int = 0
    links: list[tuple[int, int]] = field(default_factory=list)
    order: list[int] = field(default_factory=list)


@dataclass(frozen=True)
class Fault:
    """The first fault of a byte string."""

    number: int
    layer: Layer
    place: int
    rule: str


@dataclass(frozen=True)
class Word:
    place: int
    value: int

    def bits(self, high: int, low: int) -> int:
        """The number in bits `high` to `low`, both included."""
        return (self.value >> low) % (1 << (high - low + 1))

    @property
    def kind(self) -> int:
        return self.bits(31, 28)

    @property
    def nodes(self) -> int:
        """The number of nodes, if the word is a head."""
        return self.bits(9, 0)

    @property
    def pair(self) -> tuple[int, int]:
        """The two labels, if the word is a link."""
        return self.bits(19, 10), self.bits(9, 0)

    @property
    def label(self) -> int:
        """The label, if the word is an order word."""
        return self.bits(9, 0)

    @property
    def words_before(self) -> int:
        """The count, if the word is an end."""
        return self.bits(27, 0)


@dataclass
class Reading:
    """What the words up to some place have said; none of them has a fault."""

    sheet: Sheet = field(default_factory=Sheet)
    linked: set[frozenset[int]] = field(default_factory=set)
    ended: bool = False

    def take(self, word: Word) -> None:
        match word.kind:
            case Kind.HEAD:
                self.sheet.n = word.nodes
            case Kind.LINK:
                self.sheet.links.append(word.pair)
                self.linked.add(frozenset(word.pair))
            case Kind.ORDER:
                self.sheet.order.append(word.label)
            case Kind.END:
                self.ended = True


def read(data: bytes) -> Sheet | Fault:
    """The sheet that the bytes are, or their first fault."""
    reading = Reading()
    for place in count():
        piece = bytes_at(data, place)
        if not piece and reading.ended:
            return reading.sheet
        rule = broken_rule(reading, place, piece)
        if rule is not None:
            return Fault(rule.number, rule.layer, place, rule.text)
        reading.take(word_of(place, piece))


def bytes_at(data: bytes, place: int) -> bytes:
    """The bytes of the word at a place: fewer than four where the bytes run out."""
    start = BYTES_IN_A_WORD * place
    return data[start : start + BYTES_IN_A_WORD]


def word_of(place: int, piece: bytes) -> Word:
    return Word(place, int.from_bytes(piece, "little"))


def broken_rule(reading: Reading, place: int, piece: bytes) -> Rule | None:
    """The first rule that the bytes at a place break, or their absence there."""
    if not piece:
        return Rule.HEAD_FIRST if place == 0 else Rule.END_PRESENT
    if len(piece) < BYTES_IN_A_WORD:
        return Rule.WHOLE_WORD
    word = word_of(place, piece)
    return word_rule(word) or sheet_rule(reading, word) or record_rule(reading, word)


def word_rule(word: Word) -> Rule | None:
    """The first rule of the word layer that a whole word breaks."""
    if word.kind not in SPARE_BITS:
        return Rule.KNOWN_KIND
    if word.value & SPARE_BITS[word.kind]:
        return Rule.SPARE_BITS_CLEAR
    return None


def sheet_rule(reading: Reading, word: Word) -> Rule | None:
    """The first rule of the sheet layer that a word breaks."""
    if word.place == 0:
        return first_word_rule(word)
    if reading.ended:
        return Rule.END_LAST
    match word.kind:
        case Kind.HEAD:
            return Rule.ONE_HEAD
        case Kind.LINK:
            return link_place_rule(reading.sheet)
        case Kind.END:
            return end_rule(reading.sheet, word)
    return None


def first_word_rule(word: Word) -> Rule | None:
    if word.kind != Kind.HEAD:
        return Rule.HEAD_FIRST
    if not 1 <= word.nodes <= MOST_NODES:
        return Rule.HEAD_COUNT
    return None


def link_place_rule(sheet: Sheet) -> Rule | None:
    if sheet.order:
        return Rule.LINKS_BEFORE_ORDER
    if len(sheet.links) == MOST_LINKS:
        return Rule.LINKS_AT_MOST
    return None


def end_rule(sheet: Sheet, word: Word) -> Rule | None:
    if word.words_before != word.place:
        return Rule.END_COUNT
    if 1 <= len(sheet.order) < sheet.n:
        return Rule.ORDER_WHOLE
    return None


def record_rule(reading: Reading, word: Word) -> Rule | None:
    """The first rule of the record layer that a word breaks."""
    match word.kind:
        case Kind.LINK:
            return link_rule(reading, word)
        case Kind.ORDER:
            return order_rule(reading.sheet, word)
    return None


def link_rule(reading: Reading, word: Word) -> Rule | None:
    first, second = word.pair
    if not (is_node(reading.sheet, first) and is_node(reading.sheet, second)):
        return Rule.LABEL_OF_A_NODE
    if first == second:
        return Rule.TWO_NODES
    if frozenset(word.pair) in reading.linked:
        return Rule.LINKED_ONCE
    return None


def order_rule(sheet: Sheet, word: Word) -> Rule | None:
    if not is_node(sheet, word.label):
        return Rule.LABEL_OF_A_NODE
    if word.label in sheet.order:
        return Rule.ORDERED_ONCE
    return None


def is_node(sheet: Sheet, label: int) -> bool:
    return 1 <= label <= sheet.n


def account(data: bytes) -> tuple[str, int]:
    """The text that `sheetcheck` prints for these bytes, and its status."""
    considered = data[:MOST_BYTES]
    found = read(considered)
    if isinstance(found, Fault):
        return text_of(fault_lines(found, considered)), 1
    return text_of(sheet_lines(found)), 0


def text_of(lines: list[str]) -> str:
    return "".join(line + "\n" for line in lines)


def sheet_lines(sheet: Sheet) -> list[str]:
    lines = [
        f"nodes {sheet.n}",
        f"links {len(sheet.links)}",
        f"order words {len(sheet.order)}",
    ]
    for label, others in neighbours(sheet).items():
        lines.append(labels_line(str(label), sorted(others)))
    if sheet.order:
        lines.append(labels_line("order", sheet.order))
    return lines


def neighbours(sheet: Sheet) -> dict[int, list[int]]:
    """For each node in turn, the labels that it is linked to, as the links come."""
    linked_to: dict[int, list[int]] = {label: [] for label in range(1, sheet.n + 1)}
    for first, second in sheet.links:
        linked_to[first].append(second)
        linked_to[second].append(first)
    return linked_to


def labels_line(name: str, labels: list[int]) -> str:
    return " ".join([name, ":", *map(str, labels)])


def fault_lines(fault: Fault, data: bytes) -> list[str]:
    piece = bytes_at(data, fault.place)
    stands = f"0x{piece[::-1].hex()}" if piece else "missing"
    return [
        f"fault {fault.number} {fault.layer} {fault.place}",
        f"word {fault.place} is {stands}: {fault.rule}",
    ]


def main() -> int:
    text, status = account(sys.stdin.buffer.read(MOST_BYTES))
    sys.stdout.write(text)
    return status


if __name__ == "__main__":
    sys.exit(main())
