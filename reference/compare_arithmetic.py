"""Compares the program `arithcheck` with the arithmetics in arithmetic.py, floats by their bits.

    python3 reference/compare_arithmetic.py PROGRAM [COUNT]

asks some 10,000 questions, or COUNT. Ends with status 1 if the two differ on any of them, if some outcome never came up, and
if arithmetic.py itself fails a worked step of docs/ARITHMETIC.md.
"""

import random
import sys
from collections import Counter
from collections.abc import Callable, Iterator

from arithmetic import answer_to, bits_of, quotient
from comparison import SHOWN_DIFFERENCES, Answer, answer_of, program_and_count

USUAL_COUNT = 12_000
SEED = 3

WORKED_STEPS = {
    "float update 4008000000000000 3ff0000000000000 4000000000000000 3ff0000000000000": "4004000000000000",
    "float update 3ff0000000000000 4000000000000000 3ff0000000000000 4000000000000000": "c008000000000000",
    "float verdict c008000000000000": "2",
    "float update 401c000000000000 8000000000000000 0000000000000000 3ff0000000000000": "401c000000000000",
    "float over 3ff0000000000000 4008000000000000": "3fd5555555555555",
    "residue update 3 1 2 1": f"{32_763:x}",
    "residue update 4 2 1 2": "0",
    "residue verdict 0": "1",
    "residue over 7ffb 7ffb": "1",
    "mark verdict off": "1",
}

FUNCTIONS = {
    "float": {"nothing": 0, "update": 4, "verdict": 1, "take": 3, "over": 2},
    "residue": {"nothing": 0, "update": 4, "verdict": 1, "take": 3, "over": 2},
    "mark": {"nothing": 0, "update": 4, "verdict": 1},
}

NOTABLE_FLOATS = [
    "0000000000000000",  # +0
    "8000000000000000",  # -0
    "0000000000000001",  # the least above zero
    "800fffffffffffff",  # the greatest subnormal, below zero
    "0010000000000000",  # the least normal
    "3ff0000000000000",  # 1
    "bff0000000000001",  # -1, and a last bit
    "4008000000000000",  # 3
    "7fefffffffffffff",  # the greatest
    "ffefffffffffffff",
    "7ff0000000000000",  # infinite
    "fff0000000000000",
    "7ff8000000000000",  # not a number, in three patterns
    "7ff0000000000001",
    "ffffffffffffffff",
]

NOTABLE_RESIDUES = [0, 1, 2, 255, 256, 32_761, 65_519, 65_520, 65_521, 65_522, 131_042, 1 << 31, (1 << 32) - 1]

NO_QUESTIONS = [
    "",
    "float",
    "float root 1",
    "lag nothing",
    "mark take on on on",
    "mark verdict 1",
    "residue over 1",
    "residue verdict 100000000",
    "residue verdict -1",
    "residue verdict 0x1",
    "float verdict 1g",
    "float verdict 10000000000000000",
]


def any_float(source: random.Random) -> str:
    """A notable float, any bits, or a number near 1."""
    match source.randrange(4):
        case 0:
            return source.choice(NOTABLE_FLOATS)
        case 1:
            return f"{source.getrandbits(64):016x}"
        case 2:
            return bits_of(source.choice([1, -1]) * source.randrange(1, 17) / 4)
    return bits_of(source.uniform(-2.0, 2.0))


def any_residue(source: random.Random) -> str:
    number = source.choice(NOTABLE_RESIDUES) if source.randrange(3) == 0 else source.getrandbits(source.choice([4, 16, 32]))
    return f"{number:x}"


def any_mark(source: random.Random) -> str:
    return source.choice(["on", "off"])


SPELLINGS: dict[str, Callable[[random.Random], str]] = {"float": any_float, "residue": any_residue, "mark": any_mark}


def cancelling(source: random.Random) -> str:
    """An update or a take that leaves +0 if the product is rounded before the difference, and its error if it is not."""
    u, v, d = (source.uniform(1.0, 2.0) for _ in range(3))
    if source.randrange(2):
        return f"float take {bits_of(u * v)} {bits_of(u)} {bits_of(v)}"
    return f"float update {bits_of(quotient(v, d) * u)} {bits_of(u)} {bits_of(d)} {bits_of(v)}"


def questions(count: int) -> Iterator[str]:
    source = random.Random(SEED)
    for i in range(count):
        if i % 8 == 0:
            yield cancelling(source)
        elif i % 512 == 1:
            yield source.choice(NO_QUESTIONS)
        else:
            kind = source.choices(["float", "residue", "mark"], [12, 6, 1])[0]
            function = source.choices(list(FUNCTIONS[kind]), [1, 20, 4, 8, 8][: len(FUNCTIONS[kind])])[0]
            words = [SPELLINGS[kind](source) for _ in range(FUNCTIONS[kind][function])]
            yield " ".join([kind, function, *words])


def outcome(question: str, answer: str) -> str:
    """What a question and its answer are counted by."""
    if answer == "?":
        return "no question"
    kind, function, *_ = question.split()
    if function == "verdict":
        return f"{kind} verdict {answer}"
    return f"{kind} {function}"


def float_classes(answer: str) -> Iterator[str]:
    """What the result of a float function shows: the ends of the range are where compiled code goes wrong."""
    if answer == "nan":
        yield "nan"
        return
    exponent = int(answer, 16) >> 52 & 0x7FF
    fraction = int(answer, 16) & (1 << 52) - 1
    if exponent == 0x7FF:
        yield "infinite"
    elif exponent == 0 and fraction == 0:
        yield "minus zero" if answer[0] == "8" else "plus zero"
    elif exponent == 0:
        yield "subnormal"


NEEDED = [
    "no question",
    *(f"{kind} {function}" for kind in FUNCTIONS for function in FUNCTIONS[kind] if function != "verdict"),
    *(f"float verdict {cause}" for cause in range(4)),
    *(f"{kind} verdict {cause}" for kind in ("residue", "mark") for cause in range(2)),
    "nan",
    "infinite",
    "plus zero",
    "minus zero",
    "subnormal",
]


def compare(program: str, asked: list[str]) -> bool:
    """Whether the program answers every question as it is due, and every outcome needed came up."""
    due = [answer_to(question) for question in asked]
    given = answer_of(program, "".join(question + "\n" for question in asked).encode("ascii"))
    if not isinstance(given, Answer) or given.status != 0:
        print(f"arithcheck answers nothing: {given}")
        return False
    lines = given.output.decode("ascii").split("\n")
    seen: Counter[str] = Counter()
    differing = 0
    for question, answer, line in zip(asked, due, lines):
        seen[outcome(question, answer)] += 1
        if question.startswith("float") and outcome(question, answer) in ("float update", "float take", "float over"):
            seen.update(float_classes(answer))
        if line != answer:
            differing += 1
            if differing <= SHOWN_DIFFERENCES:
                print(f"differs: {question}\n  due    {answer}\n  given  {line}")
    print("outcomes: " + ", ".join(f"{each} {seen[each]}" for each in NEEDED))
    unseen = [each for each in NEEDED if seen[each] == 0]
    if unseen:
        print("never came up: " + ", ".join(unseen))
    whole = len(lines) == len(asked) + 1 and lines[-1] == ""
    if not whole:
        print(f"{len(asked)} answers were due, {len(lines) - 1} given")
    print(f"arithcheck: {len(asked)} questions compared, {differing} differ")
    return whole and differing == 0 and not unseen


def main(arguments: list[str]) -> int:
    program, count = program_and_count(arguments, USUAL_COUNT, "compare_arithmetic.py")
    failing = [question for question, due in WORKED_STEPS.items() if answer_to(question) != due]
    if failing:
        print("arithmetic.py fails worked steps: " + ", ".join(failing))
        return 1
    return 0 if compare(program, list(questions(count))) else 1


if __name__ == "__main__":
    sys.exit(main(sys.argv[1:]))
