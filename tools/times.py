"""Seconds of a processor that crates take: seen in processes of the prover, kept in git's folder of this checkout, and told ahead.

A table is a file with a row for each crate and kind of work: `crate`, `tests`, `edits`. gate-times.tsv has those of the gate
(tools/gate-times), prove-times.tsv those of what was proved here last (proving.py).
"""

import os
import re
import threading
from collections import defaultdict
from contextlib import contextmanager
from functools import cache
from pathlib import Path

from copies import TOP, git

TICK = os.sysconf("SC_CLK_TCK")
GATE, PROVED = "gate-times.tsv", "prove-times.tsv"
# How many seconds of proofs tell how fast a machine is: small crates take much for their lines.
ENOUGH = 300


def kept_file(name):
    return Path(git("rev-parse", "--absolute-git-dir").decode().strip()) / name


def seconds_kept(name):
    """Returns the seconds of a table, by crate and kind, of the crates that are still here."""
    found = defaultdict(dict)
    if kept_file(name).is_file():
        for line in kept_file(name).read_text().splitlines():
            crate, kind, seconds = line.split("\t")
            if (TOP / "crates" / crate).is_dir():
                found[crate][kind] = int(seconds)
    return found


def keep(name, sums):
    """Writes these seconds, by crate and kind, into a table; what it has of others stays."""
    kept = seconds_kept(name)
    for (crate, kind), seconds in sums.items():
        kept[crate][kind] = round(seconds)
    lines = [f"{crate}\t{kind}\t{seconds}\n" for crate in sorted(kept) for kind, seconds in sorted(kept[crate].items())]
    kept_file(name).write_text("".join(lines))


def below(root):
    """Returns the numbers of all processes that the process `root` started, and those that these did."""
    children = defaultdict(list)
    for folder in Path("/proc").glob("[0-9]*"):
        try:
            children[(folder / "stat").read_text().rpartition(")")[2].split()[1]].append(folder.name)
        except (OSError, IndexError):
            continue
    found, left = set(), [str(root)]
    while left:
        found.update(more := children[left.pop()])
        left += more
    return found


def processes(root):
    """Yields (process, crate, kind, seconds of a processor) for each process of the prover that `root` started."""
    for folder in map(Path("/proc").joinpath, below(root)):
        try:
            words = (folder / "cmdline").read_bytes().decode(errors="replace").split("\0")
            if not words[0].endswith("/rattle") or "--crate-name" not in words:
                continue
            stat = (folder / "stat").read_text().rpartition(")")[2].split()
            crate = words[words.index("--crate-name") + 1]
            cwd = os.readlink(folder / "cwd")
        except (OSError, ValueError, IndexError):
            continue
        kind = "tests" if "--test" in words else ("edits" if not re.search(rf"/crates/{crate}$", cwd) else "crate")
        yield (folder.name, stat[19]), crate, kind, (int(stat[11]) + int(stat[12])) / TICK


def watch(root, done, seen):
    while not done.wait(1):
        for process, crate, kind, seconds in processes(root):
            seen[process, crate, kind] = seconds


@contextmanager
def watched(root):
    """Gives the seconds, by crate and kind, that the prover's processes below this one took meanwhile; they stand there at the end."""
    seen, done, sums = {}, threading.Event(), defaultdict(float)
    watcher = threading.Thread(target=watch, args=(root, done, seen))
    watcher.start()
    try:
        yield sums
    finally:
        done.set()
        watcher.join()
        for (_, crate, kind), seconds in seen.items():
            sums[crate, kind] += seconds


@cache
def minutes_allowed():
    """Returns the minutes that tools/gate-times.budget allows, by kind."""
    rows = (line.split("#")[0].split() for line in (TOP / "tools" / "gate-times.budget").read_text(encoding="utf-8").splitlines())
    return {row[0]: int(row[1]) for row in rows if row}


def longest_chain(named, seconds, last):
    """Returns the crates of the chain that takes longest, lowest first, and its seconds, with what the last one takes besides."""
    chains = {}

    def chain(crate):
        if crate not in chains:
            before, so_far = max((chain(it) for it in named[crate]), key=lambda it: it[1], default=([], 0))
            chains[crate] = [*before, crate], so_far + seconds(crate)
        return chains[crate]

    return max(((chain(it)[0], chain(it)[1] + last(it)) for it in named), key=lambda it: it[1])


def tries_edits(crate):
    return any((TOP / "crates" / crate / "must-fail").glob("*.edit"))


def share_of_proof(crate):
    """Returns what of the gate's work on a crate is its proof, about: it is proved once more for its edits."""
    return 1 / 2 if tries_edits(crate) else 1


@cache
def weight_of(crate):
    """Returns by what a crate's share of the gate's work is told ahead: its lines, once more where the gate tries edits of it."""
    files = [it for part in ("src", "specs", "proofs") for it in (TOP / "crates" / crate / part).rglob("*") if it.is_file()]
    lines = sum(it.read_bytes().count(b"\n") for it in files)
    return round(lines / share_of_proof(crate))


def in_minutes(seconds):
    minutes = max(1, round(seconds / 60))
    return f"about {minutes} minute{'s' if minutes > 1 else ''}"


def speed():
    """Returns how many times the seconds of the gate's table what was proved here last took; 1 where too little is in both."""
    gate, here = seconds_kept(GATE), seconds_kept(PROVED)
    both = [it for it in here if here[it].get("crate") and gate[it].get("crate")]
    then, now = (sum(table[it]["crate"] for it in both) for table in (gate, here))
    return now / then if min(then, now) >= ENOUGH else 1


def told_ahead(crates):
    """Returns how many seconds of a processor the gate takes for each of these crates, and by what that is told: by its table, by the lines
    and what was proved here, or by the lines and the budget."""
    gate, here = seconds_kept(GATE), seconds_kept(PROVED)
    if timed := [it for it in crates if gate[it]]:
        known, scale, source = {it: sum(gate[it].values()) for it in timed}, speed(), "the seconds of tools/gate-times"
    elif sum(of.get("crate", 0) for of in here.values()) >= ENOUGH:
        known = {it: here[it].get("crate", 0) / share_of_proof(it) for it in here}
        scale, source = 1, "lines, as what was proved here took"
    else:
        every = [it.name for it in (TOP / "crates").iterdir() if it.is_dir()]
        share = 60 * minutes_allowed()["whole"] / sum(map(weight_of, every))
        known, scale, source = {it: share * weight_of(it) for it in every}, 1, "lines, of the minutes of tools/gate-times.budget"
    rate = sum(known.values()) / max(1, sum(map(weight_of, known)))
    seconds = {it: scale * known.get(it, rate * weight_of(it)) for it in crates}
    return seconds, source + (f", times {scale:.1f} as this machine is now" if scale != 1 else "")
