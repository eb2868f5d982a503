"""What stands in the crates and isn't to become more: each count with its places, how many tools/names.most allows, and what is aimed at.

A tree is the text of each file below crates/ that git tracks, by its path: as it stands here, or as a commit has it. Product crates are
those that the program is made of, and their laws: all but tests, benchmarks and what these share.
"""

import io
import re
import sys
import tarfile
from collections import defaultdict
from dataclasses import dataclass

from copies import TOP, git

sys.path.append(str(TOP / "checks"))
from functions import FUNCTION, functions_in

MOST = TOP / "tools" / "names.most"
BESIDE = ("_tests", "_bench", "_beginning", "_fixtures")
ANSWERS = ("Answers.antt", "Invariants.antt", "Proof.antt")
MOST_ARGUMENTS = 6
MOST_COLUMNS = 200
RUN = 6
NEWEST = 10

TYPE = re.compile(r"(?:pub(?:\([^)]*\))? )?(?:unsafe )?(?:struct|enum|trait|type) (\w+)")
STATEMENT = re.compile(r"(?:pub )?([^\s:(){}]+) : (.*)")
BOUND = re.compile(r"[({]([^(){}:]+?) : |λ ([^(){}.:]+)\.")
WORD = re.compile(r"(?<![.\w])[^\s(){}.,;]+")
IMPORT = re.compile(r"(?:pub )?(?:ghost )?(?:use|mod) |unfoldable pub use |unfolding ")


@dataclass(frozen=True)
class Place:
    """A place that counts: what counts there, by what name tools/names.allow excepts it, and what is told of it."""

    what: str
    name: str
    file: str
    line: int
    told: str


@dataclass(frozen=True)
class Row:
    """A row of tools/names.most."""

    name: str
    most: str
    places: str
    goal: str
    about: str


def tracked():
    """Returns the files of specs and code below crates/ that git tracks, and that are there."""
    names = git("ls-files", "-z", "--", "crates/*.rt", "crates/*.antt").decode().split("\0")
    return [it for it in names if it and (TOP / it).is_file()]


def tree_here():
    return {it: (TOP / it).read_text(encoding="utf-8") for it in tracked()}


def tree_of(commit):
    with tarfile.open(fileobj=io.BytesIO(git("archive", commit, "crates"))) as kept:
        files = [it for it in kept if it.isfile() and it.name.endswith((".rt", ".antt"))]
        return {it.name: kept.extractfile(it).read().decode() for it in files}


def part_of(tree, part, product=True):
    """Yields the files of src/, specs/ or proofs/ with their texts, of product crates alone or of all."""
    for file, text in sorted(tree.items()):
        _, crate, folder = file.split("/")[:3]
        if folder == part and not (product and crate.endswith(BESIDE)):
            yield file, text


def below_crates(file):
    return file.removeprefix("crates/")


def by_what(places):
    found = defaultdict(list)
    for it in places:
        found[it.what].append(it)
    return found


def repeated(places):
    """Returns the places of what stands twice or more."""
    return [it for there in by_what(places).values() if len(there) > 1 for it in there]


def types(tree):
    """The names of types that product crates define twice or more."""
    for file, text in part_of(tree, "src"):
        for number, line in enumerate(text.split("\n"), 1):
            if found := TYPE.match(line):
                yield Place(found[1], found[1], file, number, f"type {found[1]}")


def participles(tree):
    """The files of product crates that are named by a word in -ing."""
    for file, _ in part_of(tree, "src"):
        if file.endswith("ing.rt"):
            yield Place(file, below_crates(file), file, 1, "named by a participle")


def count_arguments(text):
    """Counts the arguments of a function whose text begins behind its name."""
    depth, arguments, begun = 0, 0, False
    for at, sign in enumerate(text):
        if sign in ")]}" or (sign == ">" and text[at - 1] not in "-="):
            depth -= 1
            if sign == ")" and depth == 0:
                return arguments + begun
        elif depth and sign == "," and text[at - 1] != ",":
            arguments, begun = (arguments + 1, False) if depth == 1 else (arguments, begun)
        elif depth and not sign.isspace():
            begun = True
        if sign in "([{<":
            depth += 1
            arguments, begun = (0, False) if depth == 1 else (arguments, begun)
    return arguments


def has_body(lines, indent):
    """Whether a function that begins here is more than a declaration of a trait."""
    heads = tuple(indent + it for it in (")", "fn", "pub", "unsafe", "const"))
    for line in lines:
        if line in (indent + "{", indent + "{}") or (line.startswith(heads) and line.endswith(("{", "{}"))):
            return True
        if line.endswith(";"):
            return False
    return False


def functions(tree):
    """The functions of product crates with a body and more arguments than six; `self` counts."""
    for file, text in part_of(tree, "src"):
        lines = text.split("\n")
        for it in functions_in(file, text):
            head = FUNCTION.match(lines[it.first - 1])
            many = count_arguments("\n".join(lines[it.first - 1 : it.last])[head.end() :])
            if many > MOST_ARGUMENTS and has_body(lines[it.first - 1 : it.last], head[1]):
                name = f"{below_crates(file)}:{head[2]}"
                yield Place(name, name, file, it.first, f"{head[2]} has {many} arguments")


def with_numbers(statement):
    """Returns the statement with numbers in the place of its bound names."""
    names = [name for it in BOUND.finditer(statement) for name in (it[1] or it[2]).split() if name != "_"]
    numbers = {name: f"#{at}" for at, name in enumerate(dict.fromkeys(names))}
    return WORD.sub(lambda it: numbers.get(it[0], it[0]), " ".join(statement.split()))


def statements(tree):
    """The statements of lemmas that stand twice or more at the top level of product crates' proofs/, up to bound names."""
    for file, text in part_of(tree, "proofs"):
        lines = text.split("\n") if not file.endswith(ANSWERS) else []
        for at, line in enumerate(lines):
            if found := STATEMENT.fullmatch(line):
                end = next((k for k in range(at + 1, len(lines)) if not lines[k].startswith(" ")), len(lines))
                said = with_numbers("\n".join([found[2], *lines[at + 1 : end]]))
                yield Place(said, f"{below_crates(file)}:{found[1]}", file, at + 1, f"statement of {found[1]}")


def columns(tree):
    """The lines of proofs/ that are longer than 200 columns."""
    for file, text in part_of(tree, "proofs", product=False):
        for number, line in enumerate(text.split("\n"), 1):
            if len(line) > MOST_COLUMNS:
                yield Place(f"{file}: {line}", below_crates(file), file, number, f"{len(line)} columns")


def lines_that_count(text):
    """Yields the lines with their numbers, white space folded, without those that are empty or a comment; an import is None."""
    for number, line in enumerate(text.split("\n"), 1):
        said = " ".join(line.split())
        if said and not said.startswith(("//", "--")):
            yield number, None if IMPORT.match(said) else said


def runs(files):
    """Yields the lines of each run of six or more that stood before, to the letter, in these files or in another place of the same one."""
    known = {}
    for file, text in files:
        lines, again = [it for it in lines_that_count(text) if it[1]], {}
        for at in range(len(lines) - RUN + 1):
            before = known.setdefault(hash(tuple(said for _, said in lines[at : at + RUN])), (file, lines[at][0]))
            if before != (file, lines[at][0]):
                again |= {at + k: before for k in range(RUN) if at + k not in again}
        for at, before in sorted(again.items()):
            number, said = lines[at]
            yield Place(f"{file}: {said}", below_crates(file), file, number, f"stands in {before[0]} from line {before[1]} on, too")


def code_again(tree):
    """The lines of code of product crates in a run of six that stood before."""
    return runs(part_of(tree, "src"))


def proofs_again(tree):
    """The lines of specs and proofs in a run of six that stood before."""
    return runs([*part_of(tree, "specs", product=False), *part_of(tree, "proofs", product=False)])


def lines_of(tree, *parts):
    """Counts the lines that aren't empty or a comment, of product crates' code or of all specs and proofs."""
    return sum(1 for part in parts for _, text in part_of(tree, part, product=part == "src") for _ in lines_that_count(text))


def all_lines(tree):
    return sum(len(text.splitlines()) for part in ("specs", "proofs") for _, text in part_of(tree, part, product=False))


# What a count is of: its places, whether only what stands twice counts, and each time as one, and the parts of which the count is a share.
COUNTS = {
    "types": (types, True, ()),
    "participles": (participles, False, ()),
    "arguments": (functions, False, ()),
    "statements": (statements, True, ()),
    "columns": (columns, False, ()),
    "code-again": (code_again, False, ("src",)),
    "proofs-again": (proofs_again, False, ("specs", "proofs")),
}


def places_of(name, tree, allowed):
    """Returns the places of a count, without those that are allowed."""
    find, only_twice, _ = COUNTS[name]
    places = [it for it in find(tree) if f"{name} {it.name}" not in allowed]
    return repeated(places) if only_twice else places


def number_of(name, places):
    return len(by_what(places)) if COUNTS[name][1] else len(places)


def rows():
    """Yields the rows of tools/names.most."""
    for line in MOST.read_text(encoding="utf-8").splitlines():
        said, _, about = line.partition("#")
        if said.strip():
            yield Row(*said.split(), about.strip())


def newest(name, places):
    """Returns the places that HEAD doesn't have, or else those newer than the bounds; all where there are none."""
    written = git("log", "-1", "--format=%H", "--", MOST).decode().strip()
    for commit in filter(None, ("HEAD", written)):
        had = {(it.what, it.name, it.file) for it in COUNTS[name][0](tree_of(commit))}
        if new := [it for it in places if (it.what, it.name, it.file) not in had]:
            return new
    return places


def told(places, twice):
    """Yields a line for each place, and one for a run of lines."""
    before = None
    for it in places:
        if before != (it.file, it.line - 1):
            other = next((at for at in twice.get(it.what, ()) if at != it), None)
            yield f"  {it.file}:{it.line}: {it.told}" + (f", as {other.file}:{other.line}" if other else "")
        before = it.file, it.line


def faults(allowed):
    """Yields what is to be said of each count that is over its bound."""
    tree = tree_here()
    for row in rows():
        if row.name not in COUNTS:
            continue
        places = places_of(row.name, tree, allowed)
        number = number_of(row.name, places)
        in_places = row.places != "-"
        if number > int(row.most) or (in_places and len(places) > int(row.places)):
            now, then = (f" in {len(places)} places", f" in {row.places}") if in_places else ("", "")
            yield f"{row.name}: {number}{now} where tools/names.most has {row.most}{then}: {row.about}"
            lines = list(told(newest(row.name, places), by_what(places) if COUNTS[row.name][1] else {}))
            yield from lines[:NEWEST]
            yield from [f"  and {len(lines) - NEWEST} more"] if len(lines) > NEWEST else []


def numbers(allowed):
    """Yields each row with its number and the number of its places today, and its share in hundreds where one is aimed at."""
    tree = tree_here()
    for row in rows():
        if row.name not in COUNTS:
            yield row, all_lines(tree), None, None
            continue
        places, (_, only_twice, parts) = places_of(row.name, tree, allowed), COUNTS[row.name]
        number = number_of(row.name, places)
        yield row, number, len(places) if only_twice else None, 100 * number / lines_of(tree, *parts) if parts else None


def table(allowed):
    """Yields the lines of the table of all counts."""
    yield f"{'count':<14}{'today':>8}{'places':>8}{'most':>8}{'places':>8}{'goal':>9}"
    for row, number, places, share in numbers(allowed):
        about = row.about if share is None else f"{row.about} (today {share:.2f}%)"
        yield f"{row.name:<14}{number:>8}{places or '-':>8}{row.most:>8}{row.places:>8}{row.goal:>9}  {about}"


def lowered(line, old, new):
    """Returns the line of a row with the lesser of an old number and a new one, as wide as it was."""
    return line if old == "-" or new >= int(old) else re.sub(rf"(?<= ){old}(?= )", str(new).rjust(len(old)), line, count=1)


def lower(allowed):
    """Writes today's numbers as the bounds where they are less."""
    lines = MOST.read_text(encoding="utf-8").splitlines()
    for row, number, places, _ in numbers(allowed):
        at = next(k for k, line in enumerate(lines) if line.split()[:1] == [row.name])
        lines[at] = lowered(lowered(lines[at], row.most, number), row.places, places or 0)
    MOST.write_text("\n".join(lines) + "\n", encoding="utf-8")
