"""How long the program takes for each stage of reading a configuration, by runs of `npfctl validate` with faults.

Of the first stage that has a fault the first one is told (npf.conf(5), "FAULTS"), and no stage behind it is begun. So a run on a text
with a fault of its own ends where that stage does: the text is read where a byte that is no token stands before it, its tokens are made
where that byte stands behind it, it is parsed where a brace stands there, and so on. What a stage takes is what its run takes longer than
the one before. Each run is done some times in turn, and the least time counts.
"""

import re
import subprocess
import time
from pathlib import Path

BUILT = Path(__file__).resolve().parent.parent / "crates/npfctl/out/npfctl"
RUNS = 5

# A stage, the number of the fault, and what has it before and behind the text.
FAULTS = [
    ("read", 10, "\x01\n", ""),
    ("lexed", 10, "", "\x01\n"),
    ("parsed", 20, "", "}\n"),
    ("expanded", 30, "", "$last = $unknown\n"),
    ("checked", 41, "", "group default { block all }\n"),
]


def answer(program, folder, words):
    """Returns the seconds that a run takes, and what it says."""
    start = time.perf_counter()
    ran = subprocess.run([program, *words], cwd=folder, stdout=subprocess.PIPE, stderr=subprocess.PIPE, text=True)
    took = time.perf_counter() - start
    return took, (ran.stdout or ran.stderr).strip()


def stages(program, folder, text, ifaces):
    """Returns what the program says of the text, and pairs of a stage and the seconds that it takes."""
    put = Path(folder)
    (put / "ifaces").write_text(ifaces)
    least, said = {}, {}
    for stage, _, before, behind in [*FAULTS, ("compiled", 0, "", "")]:
        (put / stage).write_text(before + text + behind)
    for _ in range(RUNS):
        for stage, *_ in [*FAULTS, ("compiled",)]:
            took, said[stage] = answer(program, folder, ["validate", stage, "--ifaces", "ifaces"])
            least[stage] = min(took, least.get(stage, took))
    own = fault_of(said["compiled"])
    for stage, number, *_ in FAULTS:
        if fault_of(said[stage]) not in (number, own):
            raise SystemExit(f"bench: {stage}: {said[stage]}")
    names = list(least)
    return said["compiled"], [(name, max(0, least[name] - least[before])) for before, name in zip(names, names[1:])]


def fault_of(said):
    """Returns the number of the fault that the program tells, or None."""
    found = re.match(r"npfctl: [^:]+:\d+:\d+: (\d+) ", said)
    return int(found[1]) if found else None


def told(pairs):
    return ", ".join(f"{name} in {seconds * 1e3:.1f} ms" for name, seconds in pairs)
