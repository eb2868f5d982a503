"""This checkout, and copies of its sources, in which rt works side by side: it has one command at a time work in a checkout's crates."""

import filecmp
import os
import shutil
import subprocess
import sys
from pathlib import Path

TOP = Path(__file__).resolve().parent.parent
MEMORY_OF_A_CHECK = 3 << 30


def git(*words):
    """Returns the bytes that git says of this checkout, and ends with its fault where it fails."""
    ran = subprocess.run(["git", "-C", TOP, *words], capture_output=True)
    if ran.returncode:
        sys.exit(f"git: {ran.stderr.decode(errors='replace').strip()}")
    return ran.stdout


def checks_at_a_time():
    """Returns for how many checks there are processors, and memory."""
    memory = os.sysconf("SC_PAGE_SIZE") * os.sysconf("SC_PHYS_PAGES")
    return max(1, min(len(os.sched_getaffinity(0)), memory // MEMORY_OF_A_CHECK))


def files_below(folder):
    """Yields the files below the folder, without those that rt made."""
    for at, folders, names in os.walk(folder):
        folders[:] = [it for it in folders if it not in ("out", "__pycache__")]
        yield from (Path(at) / name for name in names)


def renew(copy):
    """Gives the copy the files that it has to hold; those that it holds already keep their times, and so does what rt made there."""
    places = [it.relative_to(TOP) for it in files_below(TOP / "crates")]
    places = [it for it in places if it.parts[2] not in ("edits", "must-fail")]
    places += [Path(it) for it in ("crates.txt", "HANDLES") if (TOP / it).is_file()]
    for crate in copy.glob("crates/*"):
        if not (TOP / "crates" / crate.name).is_dir():
            shutil.rmtree(crate)
    wanted = set(places)
    for file in list(files_below(copy / "crates")):
        if file.relative_to(copy) not in wanted:
            file.unlink()
    for place in places:
        there = copy / place
        if not there.is_file() or not filecmp.cmp(TOP / place, there, shallow=False):
            there.parent.mkdir(parents=True, exist_ok=True)
            shutil.copyfile(TOP / place, there)
