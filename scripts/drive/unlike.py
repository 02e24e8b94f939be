"""The answers of a run that are unlike the stored ones."""


def lines_of(name):
    with open(name, encoding="ascii") as file:
        return [line for line in file.read().split("\n") if line]


def unlike(questions, answers, stored):
    """The questions of three files whose answers differ, each with its answer and the stored one, or None if the
    numbers of lines do."""
    asked = [line for line in lines_of(questions) if not line.startswith("#")]
    told, wanted = lines_of(answers), lines_of(stored)
    if not len(asked) == len(told) == len(wanted):
        return None
    return [lines for lines in zip(asked, told, wanted) if lines[1] != lines[2]]
