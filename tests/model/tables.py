"""The tables of rows and their answers: those that the model makes, and those that are stored.

Rows are in rows/*.rows, and generate.py makes the rows that a line `= NAME` in these has the place of. The answers
come from the model in this folder, and nothing from the programs. The model itself is compared with
rows/worked.answers, lines that were worked out by hand.
"""

import sys
from pathlib import Path

from tests.model import change_answers, generate, index_answers, lookup_answers

USAGE = "usage: tests/model/run [--write]"
HERE = Path(__file__).resolve().parent
CRATES = HERE.parent.parent / "crates"

# Each program with the file of its rows and what answers them.
PROGRAMS = {
    "test_rows": ("index.rows", index_answers.answer),
    "test_lookup_rows": ("lookups.rows", lookup_answers.answer),
    "test_change_rows": ("changes.rows", change_answers.answer),
}


def table(name):
    """The lines of a table: those of the file, with generated rows in their places."""
    lines = []
    for line in (HERE / "rows" / name).read_text().splitlines():
        lines += generate.ROWS[line[2:]]() if line.startswith("= ") else [line]
    return lines


def answered(program, lines, answer):
    """The lines of all answers."""
    found = []
    for row in lines:
        if row and not row.startswith("#"):
            try:
                found += [f"> {row}"] + answer(row, CRATES / program / "data")
            except Exception as fault:
                raise SystemExit(f"{program}: the model can't answer {row}: {fault!r}") from fault
    return found


def blocks(lines):
    """Rows with the lines behind them."""
    found = []
    for line in lines:
        if line.startswith("> ") or not found:
            found.append([])
        found[-1].append(line)
    return found


def differences(name, made, stored):
    """Each block of a table: whether the stored one is that of the model, and what differs."""
    for place in range(max(len(made), len(stored))):
        wanted = made[place] if place < len(made) else ["nothing"]
        found = stored[place] if place < len(stored) else ["nothing"]
        pairs = enumerate(zip([*wanted, "nothing"], [*found, "nothing"]))
        at = next((at for at, (one, other) in pairs if one != other), 0)
        one, other = [*wanted, "nothing"][at], [*found, "nothing"][at]
        yield f"{name}: {wanted[0][:80]}: the model has {one[:100]!r}, stored is {other[:100]!r}", wanted == found


def made_anew(folder):
    """Writes the tables and answers of all programs into the folder."""
    for program, (rows, answer) in PROGRAMS.items():
        lines = table(rows)
        (folder / program).mkdir(parents=True, exist_ok=True)
        (folder / program / "stdin").write_text("".join(line + "\n" for line in lines))
        answers = answered(program, lines, answer)
        (folder / program / "stdout").write_text("".join(line + "\n" for line in answers))


def compared(program):
    """Each row and each answer of a program: what differs, and whether the stored one is that of the model."""
    rows, answer = PROGRAMS[program]
    lines, folder = table(rows), CRATES / program
    made = {"stdin": [[line] for line in lines], "stdout": blocks(answered(program, lines, answer))}
    for name, wanted in made.items():
        stored = (folder / name).read_text().splitlines()
        found = [[line] for line in stored] if name == "stdin" else blocks(stored)
        yield from differences(f"{program}/{name}", wanted, found)


def answer_of(row):
    """The model's answer to a row of any of the programs: a call has one name in all of them."""
    call = row.split(" ")[0]
    module = next(it for it in (index_answers, lookup_answers, change_answers) if call in it.CALLS)
    return module.answer(row, CRATES / "test_rows" / "data")


def worked():
    """Each line that was worked out by hand: what the model doesn't answer, and whether it answers it."""
    lines = (HERE / "rows" / "worked.answers").read_text().splitlines()
    for row, *wanted in blocks([line for line in lines if line and not line.startswith("#")]):
        answer = answer_of(row[2:])
        for line in wanted:
            yield f"worked.answers: {row[:80]}: the model doesn't answer {line!r}", line in answer


def everything():
    """All of these."""
    yield from worked()
    for program in PROGRAMS:
        yield from compared(program)


def main(words):
    """What tests/model/run does with its words, and its status."""
    if words == ["--write"]:
        made_anew(CRATES)
        return 0
    if words:
        print(USAGE, file=sys.stderr)
        return 2
    found = [*everything()]
    for what, holds in found:
        if not holds:
            print(what)
    passed = sum(holds for _, holds in found)
    print(f"{passed} passed, {len(found) - passed} failed")
    return 0 if passed == len(found) else 1
