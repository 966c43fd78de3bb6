"""Compares a program with a reference, input by input: what it prints, and the status that it ends with."""

import subprocess
import sys
from collections import Counter
from collections.abc import Callable, Iterable
from dataclasses import dataclass

SHOWN_DIFFERENCES = 5
SHOWN_BYTES = 64
SHOWN_TEXT = 400
MOST_SECONDS = 10


@dataclass(frozen=True)
class Answer:
    """What a program printed, and the status that it ended with."""

    output: bytes
    status: int


@dataclass(frozen=True)
class Comparison:
    """A program's name, its reference, and the outcomes that its answers are counted by."""

    name: str
    reference: Callable[[bytes], tuple[str, int]]
    success: str  # the outcome of an answer with status 0; of any other it is the first two fields printed
    faults: list[str]
    needed: list[str]  # the outcomes that must come up: a comparison shows nothing about one that never does

    @property
    def outcomes(self) -> list[str]:
        return [self.success, *self.faults]

    def answer_due(self, data: bytes) -> Answer:
        text, status = self.reference(data)
        return Answer(text.encode("ascii"), status)

    def outcome(self, due: Answer) -> str:
        if due.status == 0:
            return self.success
        return " ".join(due.output.decode("ascii").split()[:2])


def compare(comparison: Comparison, program: str, inputs: Iterable[tuple[str, bytes]]) -> bool:
    """Whether the program answers as it is due on every input, and every outcome needed came up."""
    seen: Counter[str] = Counter()
    differing = 0
    for name, data in inputs:
        due = comparison.answer_due(data)
        given = answer_of(program, data)
        seen[comparison.outcome(due)] += 1
        if given != due:
            differing += 1
            if differing <= SHOWN_DIFFERENCES:
                show_difference(name, data, due, given)
    print("outcomes: " + ", ".join(f"{each} {seen[each]}" for each in comparison.outcomes))
    unseen = [each for each in comparison.needed if seen[each] == 0]
    if unseen:
        print("never came up: " + ", ".join(unseen))
    print(f"{comparison.name}: {seen.total()} sheets compared, {differing} differ")
    return differing == 0 and not unseen


def answer_of(program: str, data: bytes) -> Answer | str:
    """What the program answers, or why it gives no answer."""
    try:
        # The program may stop reading before the input is at its end: `run` takes the broken pipe in silence.
        ended = subprocess.run([program], input=data, stdout=subprocess.PIPE, timeout=MOST_SECONDS)
    except subprocess.TimeoutExpired:
        return f"nothing within {MOST_SECONDS} seconds"
    except OSError as error:
        return f"nothing, as it does not start: {error}"
    return Answer(ended.stdout, ended.returncode)


def show_difference(name: str, data: bytes, due: Answer, given: Answer | str) -> None:
    print(f"differs: {name}")
    print(f"  input  {len(data)} bytes, {shortened(data.hex(), 2 * SHOWN_BYTES)}")
    print(f"  due    {shown(due)}")
    print(f"  given  {shown(given)}")


def shown(answer: Answer | str) -> str:
    if isinstance(answer, str):
        return answer
    return f"status {answer.status}, {shortened(repr(answer.output), SHOWN_TEXT)}"


def shortened(text: str, length: int) -> str:
    return text if len(text) <= length else f"{text[:length]} ... ({len(text)} characters)"


def program_and_count(arguments: list[str], usual_count: int, script: str) -> tuple[str, int]:
    """The arguments PROGRAM [COUNT]; ends the script with status 2 if they are something else."""
    match arguments:
        case [program]:
            return program, usual_count
        case [program, count] if count.isdecimal():
            return program, int(count)
    print(f"usage: {script} PROGRAM [COUNT]", file=sys.stderr)
    sys.exit(2)
