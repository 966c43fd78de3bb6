"""Answers questions about the arithmetics by docs/ARITHMETIC.md alone: a second implementation, against which `arithcheck`
is compared.

    python3 reference/arithmetic.py < FILE

prints what `arithcheck` must print for FILE.
"""

import struct
import sys
from collections.abc import Callable
from dataclasses import dataclass
from math import copysign, inf, isfinite, isnan, nan
from string import hexdigits
from typing import Generic, TypeVar

PRIME = 65_521

Number = TypeVar("Number")


@dataclass(frozen=True)
class Arithmetic(Generic[Number]):
    """A kind of number: how a question spells it, how an answer does, and the functions that can be asked for."""

    read: Callable[[str], Number]
    spell: Callable[[Number], str]
    numbers: dict[str, tuple[int, Callable[..., Number]]]  # a function's name, its number of arguments, the function
    verdict: Callable[[Number], int]

    def answer(self, function: str, words: list[str]) -> str:
        if function == "verdict":
            return str(self.verdict(self.read(words[0])))
        count, answer = self.numbers[function]
        return self.spell(answer(*(self.read(words[i]) for i in range(count))))


def hexadecimal(word: str, bits: int) -> int:
    """The number that a word of hexadecimal digits spells, if it has so few bits."""
    if not all(digit in hexdigits for digit in word) or int(word, 16) >> bits:
        raise ValueError(word)
    return int(word, 16)


def float_of(word: str) -> float:
    return struct.unpack(">d", hexadecimal(word, 64).to_bytes(8))[0]


def bits_of(x: float) -> str:
    return "nan" if isnan(x) else struct.pack(">d", x).hex()


def quotient(x: float, y: float) -> float:
    """x ÷ y by IEEE 754, where Python refuses to divide by a zero."""
    if y != 0.0:
        return x / y
    if x == 0.0 or isnan(x):
        return nan
    return copysign(inf, x) * copysign(1.0, y)


def float_update(a: float, u: float, d: float, v: float) -> float:
    if u == 0.0 or v == 0.0:
        return a
    scaled = quotient(v, d) * u
    return a - scaled


def float_verdict(d: float) -> int:
    if not isfinite(d):
        return 3
    if d == 0.0:
        return 1
    return 2 if d < 0.0 else 0


def float_take(b: float, u: float, y: float) -> float:
    if u == 0.0:
        return b
    product = u * y
    return b - product


def residue_quotient(v: int, d: int) -> int:
    """v ÷ d for d not 0: by Fermat, d to the power p − 2 is what d is multiplied by to give 1."""
    return v * pow(d, PRIME - 2, PRIME) % PRIME


def residue_update(a: int, u: int, d: int, v: int) -> int:
    return a if d == 0 else (a - residue_quotient(v, d) * u) % PRIME


FLOAT = Arithmetic(
    read=float_of,
    spell=bits_of,
    numbers={
        "nothing": (0, lambda: 0.0),
        "update": (4, float_update),
        "take": (3, float_take),
        "over": (2, quotient),
    },
    verdict=float_verdict,
)

RESIDUE = Arithmetic(
    read=lambda word: hexadecimal(word, 32) % PRIME,
    spell=lambda value: f"{value:x}",
    numbers={
        "nothing": (0, lambda: 0),
        "update": (4, residue_update),
        "take": (3, lambda b, u, y: (b - u * y) % PRIME),
        "over": (2, lambda b, d: b if d == 0 else residue_quotient(b, d)),
    },
    verdict=lambda d: 1 if d == 0 else 0,
)

MARK = Arithmetic(
    read=["off", "on"].index,
    spell=lambda on: "on" if on else "off",
    numbers={
        "nothing": (0, lambda: False),
        "update": (4, lambda a, u, d, v: a or (u and v)),
    },
    verdict=lambda d: 0 if d else 1,
)

KINDS: dict[str, Arithmetic] = {"float": FLOAT, "residue": RESIDUE, "mark": MARK}


def answer_to(question: str) -> str:
    """The answer to a line; `?` if it asks for no function, has too few arguments or spells one wrongly."""
    match question.split():
        case [kind, function, *words]:
            try:
                return KINDS[kind].answer(function, words)
            except (KeyError, IndexError, ValueError):
                return "?"
    return "?"


def main() -> None:
    for line in sys.stdin:
        print(answer_to(line))


if __name__ == "__main__":
    main()
