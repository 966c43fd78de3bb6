"""Plans eliminations by docs/PLAN.md alone: a second planner, against which `siteplan` is compared.

    python3 reference/plan.py < FILE

prints what `siteplan` must print for FILE and ends with the status that it must end with.
"""

import sys
from collections.abc import Callable
from dataclasses import dataclass
from enum import IntEnum

from sheet import MOST_BYTES, Fault, Sheet, neighbours, read, text_of

MOST_PLACES = 8_192
HIGHEST_PRICE = 2**32 - 1

Price = Callable[[int, int], int]  # the price of a node by its label and its present degree
Graph = dict[int, set[int]]  # the neighbours of each node that remains


class Refusal(IntEnum):
    """Why a plan, or a rule, can't be made."""

    TOO_MANY_PLACES = 13
    NO_ORDER_WORDS = 14


@dataclass(frozen=True)
class Plan:
    """The plan of a sheet under some rule. Positions count from 1."""

    sheet: Sheet
    order: list[int]  # the labels, as their nodes go
    columns: dict[int, list[int]]  # the rows of each position, ascending

    def label(self, position: int) -> int:
        return self.order[position - 1]

    @property
    def parents(self) -> dict[int, int | None]:
        """The parent of each position; a root has none."""
        return {position: min(rows, default=None) for position, rows in self.columns.items()}

    @property
    def places(self) -> list[tuple[int, int]]:
        """The places (row, column), in the order of their indices."""
        return [(row, column) for column, rows in self.columns.items() for row in (column, *rows)]


def least_degree(label: int, degree: int) -> int:
    return degree


def given_order(sheet: Sheet) -> Price | Refusal:
    """The rule by the order words of a sheet, which may then serve other sheets too."""
    if not sheet.order:
        return Refusal.NO_ORDER_WORDS
    place_of = {label: place for place, label in enumerate(sheet.order, start=1)}
    return lambda label, degree: place_of.get(label, HIGHEST_PRICE)


def plan(sheet: Sheet, price: Price) -> Plan | Refusal:
    gone = eliminate_all(sheet, price)
    if isinstance(gone, Refusal):
        return gone
    position = {label: k for k, label in enumerate(gone, start=1)}
    columns = {position[label]: sorted(position[other] for other in others) for label, others in gone.items()}
    return Plan(sheet, list(gone), columns)


def eliminate_all(sheet: Sheet, price: Price) -> Graph | Refusal:
    """The nodes in the order in which they go, each with the neighbours that it has when it goes."""
    graph = {label: set(others) for label, others in neighbours(sheet).items()}
    gone: Graph = {}
    places = 0
    while graph:
        label = next_node(graph, price)
        gone[label] = eliminate(graph, label)
        places += 1 + len(gone[label])
        if places > MOST_PLACES:
            return Refusal.TOO_MANY_PLACES
    return gone


def next_node(graph: Graph, price: Price) -> int:
    return min(graph, key=lambda label: (price(label, len(graph[label])), label))


def eliminate(graph: Graph, label: int) -> set[int]:
    """Removes a node and links every two of its neighbours; gives those neighbours."""
    others = graph.pop(label)
    for other in others:
        graph[other] |= others
        graph[other] -= {label, other}
    return others


def fill(plan: Plan) -> list[tuple[int, int]]:
    """The fill pairs in the order of their places, each as two labels, that of the lower position first."""
    linked = {frozenset(pair) for pair in plan.sheet.links}
    pairs = [(plan.label(column), plan.label(row)) for row, column in plan.places if row != column]
    return [pair for pair in pairs if frozenset(pair) not in linked]


def listing(plan: Plan) -> str:
    lines = [f"plan {plan.sheet.n} {len(plan.places)}"]
    for position, parent in plan.parents.items():
        parent_label = 0 if parent is None else plan.label(parent)
        rows = map(plan.label, plan.columns[position])
        lines.append(" ".join(map(str, [position, plan.label(position), parent_label, ":", *rows])))
    return text_of(lines)


def siteplan(data: bytes) -> tuple[str, int]:
    """The text that `siteplan` prints for these bytes, and its status."""
    sheet = read(data[:MOST_BYTES])
    if isinstance(sheet, Fault):
        return text_of([f"fault {sheet.number} {sheet.layer} {sheet.place}"]), 1
    made = plan(sheet, least_degree)
    if isinstance(made, Refusal):
        return text_of([f"fault {made.value} plan"]), 1
    return listing(made), 0


def main() -> int:
    text, status = siteplan(sys.stdin.buffer.read(MOST_BYTES))
    sys.stdout.write(text)
    return status


if __name__ == "__main__":
    sys.exit(main())
