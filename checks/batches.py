"""Must-fail edits that are tried together: what they change, which of them go together, and what a check says against each."""

import re
from dataclasses import dataclass

from functions import changed_by

# A goal that is left, and an answer that is refused. A name that is gone, or another proof's fault, tells nothing of a contract.
GOAL = re.compile(r"note: (?:\./)?(src/\S+?):(\d+):\d+: it is not proved that ")
ANSWER = re.compile(r"(?:\./)?proofs/(\S+)/(?:Answers|Invariants)\.antt:\d+:\d+: error: ")
TELLS_NOTHING = re.compile(r"has no field|is not in scope|has no `|was not admitted|was rejected")
# The last line of a check whose functions were all tried.
ENDED = re.compile(r"^only=\d+ proved=\d+$", re.M)


@dataclass(frozen=True)
class Edit:
    name: str
    text: str
    changes: tuple
    functions: frozenset


def read_edit(name, text, texts):
    """Reads an edit as rt does, and finds the functions that it changes: none where it can't be applied to these files of src/."""
    changes, file, old = [], "", ""
    for line in text.split("\n"):
        if line.startswith("file: "):
            file = line.removeprefix("file: ").strip()
        elif line.startswith("old: "):
            old = line.removeprefix("old: ")
        elif line.startswith("new:"):
            changes.append((file, old, line.removeprefix("new:").removeprefix(" ")))
            old = ""
    functions = set()
    if edited(texts, [Edit(name, text, tuple(changes), frozenset())]):
        places = [(file, texts[file].find(old)) for file, old, _ in changes]
        functions.update(*(changed_by(texts, file, texts[file].count("\n", 0, max(at, 0)) + 1) for file, at in places))
    return Edit(name, text, tuple(changes), frozenset(functions))


def edited(texts, edits):
    """Returns the files with these edits, or None where a text that one replaces doesn't stand there once."""
    made = dict(texts)
    for file, old, new in (change for edit in edits for change in edit.changes):
        if made.get(file, "").count(old) != 1:
            return None
        made[file] = made[file].replace(old, new)
    return made


def batches(texts, edits):
    """Parts the edits into batches that can be applied together, no two of a batch to one function."""
    parts = []
    for edit in edits:
        for part in parts:
            if not any(it.functions & edit.functions for it in part) and edited(texts, [*part, edit]):
                part.append(edit)
                break
        else:
            parts.append([edit])
    return parts


def is_against(line, function):
    """Whether a line of a check tells of a goal of this function that is left, or of an answer to one that is refused."""
    if goal := GOAL.match(line):
        return goal[1] == function.file and function.first <= int(goal[2]) <= function.last
    answer = ANSWER.match(line)
    if not answer or TELLS_NOTHING.search(line):
        return False
    return f"/{answer[1]}".endswith("/" + function.name.replace("::", "/"))


def refusals(said, edits):
    """Returns the first line against each edit that the check refuses by its own functions, goals that are left before answers; None
    where the check didn't get as far as that."""
    if not ENDED.search(said):
        return None
    lines = sorted(said.split("\n"), key=lambda it: not GOAL.match(it))
    against = {edit: [it for it in lines if any(is_against(it, function) for function in edit.functions)] for edit in edits}
    return {edit: found[0] for edit, found in against.items() if found}
