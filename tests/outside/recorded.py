"""The data files of recorded cases: questions, and the answers that stand beside them.

A line is empty, a heading `# TEXT`, an array `NAME = WORDS`, an array that is refused `NAME = WORDS
-> refused: WHY`, or a question and its answer `CALL OPERAND.. -> ANSWER`. A script finds the
answers anew from the questions alone.
"""
import pathlib
import sys

DATA = pathlib.Path(__file__).resolve().parent.parent.parent / "crates/recorded_cases/data"
ARROW = " -> "


def question_of(line):
    """Returns a line without its answer. A heading has none."""
    return line if line.startswith("#") else line.partition(ARROW)[0]


def answer_of(line):
    """Returns the answer that stands on a line, or None."""
    _, arrow, answer = line.partition(ARROW)
    return answer if arrow and not line.startswith("#") else None


def lines_of(path):
    """Returns the lines of a file."""
    with open(path, encoding="utf-8") as file:
        return file.read().split("\n")[:-1]


def is_array(line):
    """Returns whether a line names an array."""
    return line.split(" ", 2)[1:2] == ["="]


def is_refused(line):
    """Returns whether a line says that words make no array."""
    return is_array(line) and answer_of(line) is not None


def main(doc, answered, made=None):
    """Prints files with the answers that `answered` finds to their lines, or the file that `made`
    yields the lines of."""
    paths = sys.argv[1:]
    if not paths and made is None:
        sys.exit(doc)
    for lines in map(lines_of, paths) if paths else [made()]:
        print("\n".join(answered(lines)))
