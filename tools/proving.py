"""Proves crates side by side in copies of the sources, and keeps their libraries in this checkout.

rt has one command at a time work in a checkout's crates, and what it proved in one checkout not every kit takes in another. So a copy is
given the libraries that this checkout has, and what is proved in a copy is given to this checkout. Whether a library is one of the sources
as they stand is for rt to say, by the stamp that lies in it. rt takes minutes to tell that of a crate high up: it goes over those below once
for each way that leads to them. So what was proved here is noted under a sum of its sources, beside the stamp.
"""

import fcntl
import hashlib
import os
import shutil
import subprocess
import sys
import tempfile
import threading
import time
from concurrent.futures import FIRST_COMPLETED, ThreadPoolExecutor, wait
from contextlib import contextmanager
from functools import cache
from pathlib import Path
from queue import SimpleQueue

from copies import TOP, checks_at_a_time, files_below, renew
from times import PROVED as TIMES
from times import in_minutes, keep, watched

CRATES = TOP / "crates"
PROVED = ("src", "specs", "proofs")
# Which thread of this process works with this checkout's libraries.
LIBRARIES = threading.Lock()


@cache
def libraries_by_crates():
    """Returns the libraries that each crate names in crates.txt, those of the kit too."""
    rows = [it.partition("#")[0].partition(":") for it in (TOP / "crates.txt").read_text(encoding="utf-8").splitlines()]
    return {head.split()[0]: names.split() for head, _, names in rows if head.strip()}


@cache
def named_by_crates():
    """Returns for each crate of the repository those of the repository that it names."""
    named = libraries_by_crates()
    return {name: [it for it in below if it in named] for name, below in named.items()}


def crates_below(name, named):
    found, rest = set(), [name]
    while rest:
        new = set(named[rest.pop()]) - found
        found |= new
        rest += new
    return found


def crates_above(names, named):
    """Returns the crates that stand on one of these, and these, lowest first."""
    found = set(names)
    for name in named:
        # crates.txt has each crate behind those that it names
        found |= {name} if found.intersection(named[name]) else set()
    return [it for it in named if it in found]


@cache
def toolchain():
    return subprocess.run(["rt", "version"], capture_output=True, text=True, check=True).stdout


@cache
def sum_of(name):
    """Returns a checksum of all that a crate's proofs rest on; a library of the kit counts by its name."""
    folder = CRATES / name
    files = [it for part in PROVED for it in sorted(files_below(folder / part))]
    held = [(str(it.relative_to(folder)), it.read_bytes()) for it in files]
    below = [sum_of(it) for it in libraries_by_crates().get(name, [])]
    return hashlib.sha256(repr((name, toolchain(), held, below)).encode()).hexdigest()


def size_of(name):
    parts = (CRATES / name / it for it in PROVED)
    return sum(file.stat().st_size for part in parts for file in part.rglob("*") if file.is_file())


def stamp_of(crate):
    """Returns the stamp of the library that was built in this crate's folder, if one was."""
    stamp = crate / "out" / "rlib" / "stamp"
    return stamp.read_text() if stamp.is_file() else None


@contextmanager
def locked(name):
    """Has this crate's folder in this checkout locked, as rt has it in which it works."""
    with LIBRARIES:
        folder = os.open(CRATES / name, os.O_RDONLY)
        try:
            fcntl.flock(folder, fcntl.LOCK_EX | fcntl.LOCK_NB)
        except BlockingIOError:
            print(f"waiting for another rt to finish in {CRATES / name}", file=sys.stderr, flush=True)
            fcntl.flock(folder, fcntl.LOCK_EX)
        try:
            yield
        finally:
            os.close(folder)


def link(at, to):
    try:
        os.link(at, to)
    except OSError:
        shutil.copy2(at, to)


def give(crate, to):
    """Gives the crate in the folder `to` the library of the one in this folder, whole or not at all. Answers whether it has that one then."""
    stamp, library = stamp_of(crate), to / "out" / "rlib"
    if stamp in (None, stamp_of(to)):
        return stamp is not None
    made = library.with_name("rlib.new")
    shutil.rmtree(made, ignore_errors=True)
    made.parent.mkdir(exist_ok=True)
    shutil.copytree(crate / "out" / "rlib", made, copy_function=link)
    shutil.rmtree(library, ignore_errors=True)
    made.rename(library)
    return True


def note_of(name):
    """The file that has the sum of the sources and the stamp of a library that was proved in this checkout."""
    return CRATES / name / "out" / "rlib" / "proved"


def as_noted(name):
    return f"{sum_of(name)}\n{stamp_of(CRATES / name)}"


def is_proved(name):
    noted = as_noted(name)
    return note_of(name).is_file() and note_of(name).read_text() == noted


def give_libraries(copy, names):
    """Gives this copy the libraries of these crates that this checkout has."""
    for name in names:
        with locked(name):
            give(CRATES / name, copy / "crates" / name)


def lib(crate):
    ran = subprocess.run(
        ["rt", "lib", "--jobs", "1"],
        cwd=crate,
        stdin=subprocess.DEVNULL,
        stdout=subprocess.PIPE,
        stderr=subprocess.STDOUT,
        errors="replace",
    )
    return ran.returncode, ran.stdout


def prove(name, below, free):
    """Proves one crate in a free copy over those below it, and returns its name, its status, what was said, and whether it was proved before."""
    before = stamp_of(CRATES / name)
    copy = free.get()
    try:
        give_libraries(copy, [*below, name])
        status, said = lib(copy / "crates" / name)
        if not status:
            with locked(name):
                is_given = give(copy / "crates" / name, CRATES / name)
            if not is_given:
                status, said = lib(CRATES / name)
    finally:
        free.put(copy)
    if not status and stamp_of(CRATES / name):
        note_of(name).write_text(as_noted(name))
    return name, status, said, before is not None and stamp_of(CRATES / name) == before


def free_copies(folder, most):
    """Returns copies of the sources in this folder, one for each check at a time, and no more than so many."""
    made = SimpleQueue()
    for number in range(min(checks_at_a_time(), most)):
        renew(folder / str(number))
        made.put(folder / str(number))
    return made


def time_left(seconds, done, whole):
    # the small crates come first, and by them alone it would seem far too long
    if not whole <= 4 * done < 4 * whole:
        return ""
    return f", {in_minutes(seconds * (whole - done) / done)} left"


def prove_all(wanted, say):
    """Proves the wanted crates, lowest first, and all that they stand on has to be among them. Says what is proved, and returns what was
    said against the crates that aren't, by their names."""
    # the sums are those of before the copies are made, so that a source which is changed meanwhile isn't taken for one that was proved
    kept = {name for name in wanted if is_proved(name)}
    named, sizes, waiting = named_by_crates(), {name: size_of(name) for name in wanted}, wanted - kept
    began, done, running, failed = time.monotonic(), set(kept), set(), {}
    if kept:
        say(f"{len(kept)} of {len(wanted)} crates are proved")
    workers = ThreadPoolExecutor(checks_at_a_time())
    with watched(os.getpid()) as sums, tempfile.TemporaryDirectory(prefix="npfctl-prove-") as folder, workers as pool:
        free = free_copies(Path(folder), len(waiting))
        while running or (waiting and not failed):
            ready = {it for it in waiting if done.issuperset(named[it])} if not failed else set()
            waiting -= ready
            # the large ones first: what is above them waits longest
            running |= {pool.submit(prove, it, crates_below(it, named), free) for it in sorted(ready, key=sizes.get, reverse=True)}
            ended, running = wait(running, return_when=FIRST_COMPLETED)
            for name, status, said, was_proved in (it.result() for it in ended):
                if status:
                    failed[name] = said
                    pool.shutdown(wait=False, cancel_futures=True)
                    running = {it for it in running if not it.cancelled()}
                    continue
                done.add(name)
                kept |= {name} if was_proved else set()
                left = time_left(time.monotonic() - began, sum(map(sizes.get, done - kept)), sum(map(sizes.get, wanted - kept)))
                say(f"proved {name} ({len(done)} of {len(wanted)}{left})")
    keep(TIMES, {(name, kind): much for (name, kind), much in sums.items() if name in done - kept})
    return failed
