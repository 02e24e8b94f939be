"""Scripts as definitions of the crate `play`: each line beside the lines that it prints.

The checker computes what they print from the definition of scripts. Here it is computed by `sessions.Played`.
"""

import re

from model.sessions import Played
from questions import session_scripts

FOLDER = "crates/play/specs"

# The scripts of each file, which are those of session_scripts.py.
FILES = {
    "WorkedScripts": [
        "two_epochs", "promises", "changes", "greatest_epoch", "limits_of_histories", "half_messages", "failed_streams",
        "messages_in_one_piece", "messages_byte_by_byte",
    ],
    "LongNames": ["limits_of_names_and_keys"],
    "NamesAndEpochs": ["words_of_lines", "old_epochs"],
    "MonitorScripts": [
        "alarm", "change_by_another_session", "monitors", "promise_of_another_session",
        "several_closings_in_one_piece",
    ],
    "SessionScripts": ["two_sessions", "refusals_in_frames", "only_the_operator_closes"],
    "Rotations": ["rotations", "rotations_in_frames"],
    "Policies": ["policies", "policies_in_frames", "final_bindings"],
}
TITLES = {
    "WorkedScripts": "Worked scripts",
    "LongNames": "A script on the limits of names and keys",
    "NamesAndEpochs": "Scripts on the words of lines, and on old epochs",
    "MonitorScripts": "Scripts with monitors",
    "SessionScripts": "Scripts of other sessions",
    "Rotations": "Scripts on rotations",
    "Policies": "Scripts on bindings with a policy",
}

# A byte in hexadecimal digits, at least this often, is written as a number of times.
OFTEN = 20
RUN = re.compile(r"([0-9a-f]{2})\1{%d,}" % (OFTEN - 1))


def term(line):
    """A line as a term of bytes."""
    parts, end = [], 0
    for run in RUN.finditer(line):
        if run.start() > end:
            parts.append(f'codes "{line[end:run.start()]}"')
        parts.append(f'repeated {len(run[0]) // 2} (codes "{run[1]}")')
        end = run.end()
    if end < len(line) or not parts:
        parts.append(f'codes "{line[end:]}"')
    return " ++ ".join(parts)


def list_of(terms):
    return "".join(f"({each}) ∷ " if "++" in each else f"{each} ∷ " for each in terms) + "[]"


def definition(name):
    """A script, with its first note as a comment."""
    note, *lines = session_scripts.SCRIPTS[name]()
    played = Played()
    rows = [f"({term(line)}, {list_of(term(told) for told in played.line(line.encode()))})" for line in lines]
    return f"-- {note.removeprefix('# ')}\nabbrev pub {name} : List Row\n{name} =\n    " + "\n    ∷ ".join([*rows, "[]"]) + "\n"


def text(file):
    definitions = [definition(name) for name in FILES[file]]
    often = any("repeated" in each for each in definitions)
    head = f"-- {TITLES[file]}: each line beside the lines that it prints. `scripts/questions/script_specs.py` writes this file.\n"
    head += f"use Rattle.std.specs.Prelude.{{List, [], ◌∷◌, {'◌++◌, ' if often else ''}codes}}\n"
    head += f"use Rattle.play.specs.Rows.{{Row{', repeated' if often else ''}}}\n"
    return "\n".join([head, *definitions])


def files():
    """The stored files, by their paths in the repository."""
    return {f"{FOLDER}/{file}.antt": text(file) for file in FILES}
