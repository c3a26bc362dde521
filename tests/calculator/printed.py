"""Reads what the programs print: whole numbers, rows and refusals, and nothing else."""

from tests.calculator import calculator as calc
from tests.calculator.calculator import Refusal

SHEET_END = b"\0"  # ends a part of the input of `sheets`

# The columns of the program `rows`, in the order of document 01's result table with request (d)'s.
ROW_NAMES = (
    "station", "season", "verdict", "size_kcmil",
    "grid_current_lower_uA", "grid_current_upper_uA",
    "factor_lower_billionths", "factor_upper_billionths",
    "tolerable_touch_lower_mV", "tolerable_touch_upper_mV",
    "tolerable_step_lower_mV", "tolerable_step_upper_mV",
    "mesh_lower_mV", "mesh_upper_mV", "step_lower_mV", "step_upper_mV",
    "resistance_lower_uohm", "resistance_upper_uohm", "rise_lower_mV", "rise_upper_mV",
)

# The columns of the program `verdict`, and its words for the verdicts 1, 2 and 3.
VERDICT_NAMES = ("station", "season", "verdict", "kcmil")
WORDS = ("safe", "unsafe", "undecided")

# The columns of the program `margins`.
MARGIN_NAMES = (
    "station", "season", "verdict",
    "mesh_excess_per_mille", "step_excess_per_mille",
)


def whole(field):
    """A number in decimal digits, with no sign but minus and no zero in front."""
    number = int(field)
    if str(number) != field:
        raise ValueError(f"{field!r} is not in the form of a number")
    return number


def lines_of(text):
    """The lines of a text; each ends with one byte 10."""
    if not text.endswith("\n"):
        raise ValueError("the last line does not end")
    return text[:-1].split("\n")


def sheet_answers(asked, reported):
    """What `sheets` printed for each part of its input, without the part's first line and the empty line after the answers."""
    parts = asked.split(SHEET_END)[:-1]
    *printed, rest = reported.split("\n\n")
    heads = [part.split(b"\n")[0].decode("ascii") + "\n" for part in parts]
    if rest or len(printed) != len(parts) or not all(map(str.startswith, printed, heads)):
        raise ValueError("not an answer to each part, after its first line")
    return [answers[len(head) :] + "\n" for answers, head in zip(printed, heads)]


def read_answer(text, names, read_line):
    """A refusal alone, or what is read of each line after the line of names."""
    first, *lines = lines_of(text)
    if first.startswith("refused,"):
        if lines:
            raise ValueError("more than a refusal is printed")
        return Refusal(*(whole(field) for field in first.split(",")[1:]))
    if first != ",".join(names):
        raise ValueError(f"the names are {first!r}")
    return [read_line(line.split(",")) for line in lines]


def read_row(fields):
    """The numbers of a row."""
    if len(fields) != calc.ROW_LENGTH:
        raise ValueError(f"a row has not {calc.ROW_LENGTH} numbers")
    return [whole(field) for field in fields]


def read_rows(text):
    """What the program `rows` printed: a refusal, or the rows, each a list of its numbers."""
    return read_answer(text, ROW_NAMES, read_row)


def read_asked(text):
    """An answer of the program `questions`: a refusal, or a tuple of numbers."""
    fields = text.split(",")
    if fields[0] == "refused":
        return Refusal(*(whole(field) for field in fields[1:]))
    return tuple(whole(field) for field in fields)


def read_verdict(fields):
    """The first four numbers of a row, of which the verdict is a word."""
    station, season, word, kcmil = fields
    return [whole(station), whole(season), WORDS.index(word) + 1, whole(kcmil)]


def read_verdicts(text):
    """What the program `verdict` printed: a refusal, or each row's first four numbers."""
    return read_answer(text, VERDICT_NAMES, read_verdict)


def read_margin(fields):
    """Station, season, verdict, of which the last is a word, and the two numbers of a row."""
    station, season, word, mesh, step = fields
    return [whole(station), whole(season), WORDS.index(word) + 1, whole(mesh), whole(step)]


def read_margins(text):
    """What the program `margins` printed: a refusal, or five numbers for each row in the order printed."""
    return read_answer(text, MARGIN_NAMES, read_margin)
