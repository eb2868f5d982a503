"""What docs/npfctl.8 and docs/npf.conf.5 demand of an answer of the program: its status, the line of a fault, and what it printed or wrote.

Numbers and names of faults, and limits, are read from the pages.
"""

import re
import struct
from collections import Counter
from pathlib import Path

DOCS = Path(__file__).resolve().parent.parent / "docs"
NUMBERS_OF_STATUS = {3: range(10, 50), 6: range(80, 84), 7: range(1, 7), 8: (*range(10, 50), *range(50, 62), 70)}
# What stands behind the name `npfctl: `; a file's name may have any bytes.
FORMS = {
    1: rb"out of memory",
    2: rb"usage",
    3: rb"(?P<file>.*):(?P<line>[1-9]\d*):(?P<column>[1-9]\d*): (?P<fault>.*)",
    4: rb"cannot read (?P<file>.*)",
    5: rb"cannot write (?P<written>.*)",
    6: rb"(?P<file>.*): (?P<fault>.*)",
    7: rb"(?P<file>.*): (?P<fault>.*)",
    8: rb"(?P<file>.*):(?P<line>[1-9]\d*): (?P<fault>.*)",
    9: rb"limit (?:bytes (?P<file>.*) over (?P<most>\d+)|(?P<what>[a-z-]+) (?P<count>\d+) over (?P<over>\d+))",
}
DETAILS = {5: rb" [1-9]\d*", 6: rb" [1-9]\d*", 35: rb" [1-9]\d*", 49: rb" ([a-z]+) (\d+) over (\d+)", 80: rb" [1-9]\d*", 81: rb" [1-9]\d*", 82: rb" [1-9]\d*"}
BEHIND_LOG = rb"(?: log [A-Za-z][A-Za-z0-9._-]{0,14})?"
OUTCOME = re.compile(
    rb"(skip)(?: fragment(?: overlap| bad)?)?|(malformed) (?:cut|bad) \d+|(block) conn \d+ step \d+ state|(block) config \d+ none"
    rb"|(pass) conn (?P<opener>\d+) step \d+" + BEHIND_LOG + rb"|(pass) config \d+ rule [1-9]\d*(?: new| unkept (?:full|nonode|taken))?" + BEHIND_LOG
    + rb"|(block) config \d+ rule [1-9]\d*(?: return| return-rst| return-icmp)?" + BEHIND_LOG
    + rb"|(drop) config \d+ rule [1-9]\d* (?:full|nonode|taken|noport)")
REPORT_LINE = re.compile(rb"(\d+) [A-Za-z][A-Za-z0-9._-]{0,14} (?:in|out) (.*)")
TOTAL = "packets {} pass {} block {} drop {} skip {} malformed {}\n"
WRITTEN_HEADER = struct.pack("<IHHiIII", 0xA1B23C4D, 2, 4, 0, 0, 262144, 101)
SAVED_LINE = re.compile(rb"conn ([0-9a-f.]{84}) (?:-|[0-9a-f.]{84}) (?:-|[0-9a-f.]{84}) \S+ \d+ \S+ \S+ \S+(?: timeouts(?: \d+){7})?\n")


def page(name):
    return (DOCS / name).read_text(encoding="utf-8")


def fault_names():
    """The name of each fault by its number."""
    found = re.findall(r"^\.It Li (\d+) ([A-Z]\w+)", page("npfctl.8") + page("npf.conf.5"), re.M)
    return {int(number): name.encode() for number, name in found}


def limits():
    """The greatest number of each thing that a fault names, and those of bytes."""
    rows = re.findall(r"^\.It .* Ta ([\d,]+) Ta (49|9) ([a-z-]+)$", page("npfctl.8"), re.M)
    return {(int(fault), what.encode(), int(most.replace(",", ""))) for most, fault, what in rows}


NAMES, LIMITS = fault_names(), limits()


def fault_complaints(status, text):
    """What is wrong with a fault's number, name and what stands behind them."""
    found = re.fullmatch(rb"(\d+) ([A-Z]\w+)(.*)", text)
    if not found:
        return [f"no number and name: {text!r}"]
    number, name, behind = int(found[1]), found[2], found[3]
    if number not in NUMBERS_OF_STATUS[status] or NAMES.get(number) != name:
        return [f"no fault {number} {name!r} of status {status}"]
    detail = re.fullmatch(DETAILS.get(number, b""), behind)
    if not detail:
        return [f"behind fault {number} stands {behind!r}"]
    if number == 49 and not ((49, detail[1], int(detail[3])) in LIMITS and int(detail[2]) > int(detail[3])):
        return [f"no such limit is passed: {behind!r}"]
    return []


def place_complaints(line, column, data):
    """A place is in the text, or directly behind it."""
    rows = data.split(b"\n")
    if line > len(rows) or column is not None and column > len(rows[line - 1]) + 1:
        return [f"no place {line}:{column} in a text of {len(rows)} lines"]
    return []


def line_complaints(status, said, files, names):
    """What is wrong with the line of a fault. `files` has the bytes by name, `names` what the words name to be written."""
    if status == 1 and said == b"":
        return []
    found = re.fullmatch(rb"npfctl: " + FORMS[status] + rb"\n", said, re.S)
    if not found:
        return [f"the line of status {status} is {said[:300]!r}"]
    parts = found.groupdict()
    bad = []
    if "fault" in parts:
        bad += fault_complaints(status, parts["fault"])
    if "line" in parts:
        data = files.get(parts["file"])
        column = int(parts["column"]) if "column" in parts else None
        bad += [f"no file {parts['file']!r}"] if data is None else place_complaints(int(parts["line"]), column, data)
    if status == 5 and parts["written"] not in {b"standard output", *names}:
        bad.append(f"{parts['written']!r} isn't to be written")
    if status == 9:
        bad += limit_complaints(parts)
    return bad


def limit_complaints(parts):
    if parts["what"] is None:
        return [] if (9, b"bytes", int(parts["most"])) in LIMITS else [f"no limit of {parts['most']} bytes"]
    known = (9, parts["what"], int(parts["over"])) in LIMITS
    return [] if known and int(parts["count"]) > int(parts["over"]) else [f"no such limit is passed: {parts}"]


def report_complaints(data, workers, loads):
    """What is wrong with a whole report, and how many packets it says passed."""
    lines, counts = data.split(b"\n"), Counter()
    for number, line in enumerate(lines[:-2], 1):
        found = REPORT_LINE.fullmatch(line)
        outcome = found and OUTCOME.fullmatch(found[2])
        if not outcome or int(found[1]) != number:
            return [f"line {number} of the report is {line[:200]!r}"], 0
        counts[next(it for it in outcome.groups() if it)] += 1
        opener = outcome["opener"]
        if opener and (int(opener) >= number and workers == 1 or int(opener) == 0 and not loads):
            return [f"packet {number} is of the connection of packet {int(opener)}"], 0
    kinds = [counts[it] for it in (b"pass", b"block", b"drop", b"skip", b"malformed")]
    total = TOTAL.format(max(len(lines) - 2, 0), *kinds).encode()
    wrong = [] if data.endswith(total) and len(lines) > 1 else [f"the report ends in {data[-200:]!r} and not in {total!r}"]
    return wrong, counts[b"pass"]


def total_complaints(data):
    whole = re.fullmatch(rb"packets (\d+) pass (\d+) block (\d+) drop (\d+) skip (\d+) malformed (\d+)\n", data)
    return [] if whole and int(whole[1]) == sum(map(int, whole.groups()[1:])) else [f"the total is {data[:200]!r}"]


def programs_complaints(data):
    """Programs are numbered from 1, each with as many instructions as it says, whose jumps stay inside."""
    lines = data.splitlines()
    at = 0
    for rule in range(1, len(lines) + 2):
        if at == len(lines):
            return []
        if lines[at] != b"rule %d" % rule or not (count := int(lines[at + 1])):
            return [f"line {at + 1} of the programs is {lines[at]!r}"]
        for place in range(count):
            code, yes, no, k = map(int, lines[at + 2 + place].split(b" "))
            steps = ([k] if code == 5 else [yes, no]) if code & 7 == 5 else []
            if any(place + 1 + step >= count for step in steps):
                return [f"rule {rule} jumps past its end"]
        at += 2 + count
    return []


def written_complaints(data, passed):
    """What is wrong with a written capture of so many packets."""
    if data[:24] != WRITTEN_HEADER:
        return ["the written capture's header is another"]
    at, times = 24, []
    while at + 16 <= len(data):
        seconds, fraction, stored, whole = struct.unpack_from("<IIII", data, at)
        packet = data[at + 16 : at + 16 + stored]
        if stored != whole or fraction >= 10**9 or len(packet) < stored or stored != length_of_ip(packet):
            return [f"record {len(times) + 1} of the written capture has {stored} bytes of {whole}, and lacks or has more than its packet"]
        times.append((seconds, fraction))
        at += 16 + stored
    if at != len(data) or times != sorted(times) or len(times) != passed:
        return [f"the written capture has {len(times)} records where {passed} packets passed, or isn't in order"]
    return []


def length_of_ip(packet):
    if len(packet) >= 20 and packet[0] >> 4 == 4:
        return struct.unpack_from(">H", packet, 2)[0]
    if len(packet) >= 40 and packet[0] >> 4 == 6:
        return 40 + struct.unpack_from(">H", packet, 4)[0]
    return None


def saved_complaints(data):
    """What is wrong with a file of connections."""
    lines = data.splitlines(keepends=True)
    conns = [it for it in lines if it.startswith(b"conn ")]
    heads = lines[: len(lines) - len(conns)]
    fine = heads[:1] == [b"npf-connections 1\n"] and all(it.startswith(b"if ") and it.endswith(b"\n") for it in heads[1:])
    keys = [found[1] if (found := SAVED_LINE.fullmatch(it)) else None for it in conns]
    if not fine or None in keys or keys != sorted(set(keys)):
        return ["the file of connections has another form"]
    return []
