"""What a change touches, by git: files, crates, functions, edits and tests."""

import re
import sys
from functools import cached_property

from copies import TOP, git
from proving import CRATES, PROVED, crates_above, named_by_crates

sys.path.append(str(TOP / "checks"))
from batches import edited, read_edit
from functions import changed_by

HUNK = re.compile(r"^@@ -\S+ \+(\d+)(?:,(\d+))? @@", re.M)


def files_told(*words):
    return set(git(*words).decode().split("\0")) - {""}


def rows_of(text):
    """Returns the rows of a text as crates.txt is, by the crates."""
    rows = [it.partition("#")[0].split() for it in text.splitlines()]
    return {row[0].rstrip(":"): row for row in rows if row}


class Change:
    """All that isn't committed, or all since a commit."""

    def __init__(self, base):
        self.base, self.named = base, named_by_crates()
        self.new = files_told("ls-files", "-z", "--others", "--exclude-standard")
        self.files = sorted(self.new | files_told("diff", "--name-only", "--no-renames", "-z", base, "--"))

    def in_crates(self, *parts):
        """Returns the crates of which a file in one of these folders or of these names changed, lowest first."""
        found = {it[1] for it in (file.split("/") for file in self.files) if it[0] == "crates" and len(it) > 2 and it[2] in parts}
        return [it for it in self.named if it in found]

    @cached_property
    def crates(self):
        """The crates that are another proof now, lowest first."""
        found = set(self.in_crates(*PROVED))
        if "crates.txt" in self.files:
            before, now = rows_of(git("show", f"{self.base}:crates.txt").decode()), rows_of((TOP / "crates.txt").read_text(encoding="utf-8"))
            found |= {it for it in now if now[it] != before.get(it)}
        return [it for it in self.named if it in found]

    @cached_property
    def anew(self):
        """The crates that the gate proves anew, lowest first."""
        return crates_above(self.crates, self.named)

    def lines(self, file):
        """Returns the numbers of the lines of a file that are new, and of those around what is gone."""
        if file in self.new:
            return range(1, (TOP / file).read_text(encoding="utf-8").count("\n") + 1)
        said = git("diff", "-U0", "--no-renames", self.base, "--", file).decode(errors="replace")
        hunks = [(int(it[1]), int(it[2] or 1)) for it in HUNK.finditer(said)]
        return [line for at, many in hunks for line in range(max(at, 1), at + max(many, 2 if not many else 1))]

    def functions(self, crate):
        """Returns the functions of a crate that the change touches."""
        texts, found = texts_of(crate), set()
        for place in texts:
            if f"crates/{crate}/{place}" in self.files:
                last = texts[place].count("\n")
                found.update(*(changed_by(texts, place, line) for line in self.lines(f"crates/{crate}/{place}") if line <= last))
        return found

    @cached_property
    def edits(self):
        """The edits of the functions that the change touches, and those that it changes, as files below crates/; and those that can't be
        applied any more."""
        tried, stale = [], []
        for crate in self.in_crates(*PROVED, "edits", "must-fail"):
            texts, touched = texts_of(crate), self.functions(crate)
            for path in edits_of(crate):
                edit, place = read_edit(path.name, path.read_text(encoding="utf-8", errors="replace"), texts), str(path.relative_to(CRATES))
                if edited(texts, [edit]) is None and all(file.startswith("src/") for file, _, _ in edit.changes):
                    stale.append(place)
                elif touched & edit.functions or f"crates/{place}" in self.files:
                    tried.append(place)
        return tried, stale

    @cached_property
    def tests(self):
        """The test crates that name a crate of the change, or are of it: those that are programs of rows, and the others."""
        touched = set(self.crates)
        own = set(self.in_crates(*PROVED, "stdin", "stdout"))
        found = [it for it in self.named if it.endswith("_tests") and (it in own or touched.intersection(self.named[it]))]
        programs = [it for it in found if (CRATES / it / "stdout").is_file()]
        return programs, [it for it in found if it not in programs]


def texts_of(crate):
    return {str(it.relative_to(CRATES / crate)): it.read_text(encoding="utf-8") for it in sorted((CRATES / crate / "src").rglob("*.rt"))}


def edits_of(crate):
    return [it for part in ("edits", "must-fail") for it in sorted((CRATES / crate / part).rglob("*.edit"))]
