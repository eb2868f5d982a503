"""Inputs of the program that are made by chance: configurations, scripts, files of interfaces and of tables, and captures.

Each function takes a source of chance, `random.Random`, and makes a text that is mostly in its grammar, about the same few names and
addresses, so that rules, maps and connections meet. Captures are bytes. `swollen` makes files of which one repeats a line very often.
"""

import struct
import sys
from pathlib import Path

sys.path.insert(0, str(Path(__file__).resolve().parent.parent / "examples"))
from packets import ETHERNET, RAW, checksum, echo, frame, ip, packed, summed, tcp, udp  # noqa: E402

INTERFACES = ["wm0", "wm1", "cap0"]
INNER = ["10.1.1.2", "10.1.1.7", "10.1.2.3", "fd01:203:405::1"]
OUTER = ["203.0.113.1", "198.51.100.9", "192.0.2.66", "2001:db8::2"]
PORTS = [22, 53, 80, 443, 1024, 9022, 40000, 65535]
NUMBERS = ["0", "1", "15", "64", "255", "256", "1460", "65535", "65536", "4294967295", "4294967296", "18446744073709551616"]


def some(rng, makes, most=3):
    return [makes(rng) for _ in range(rng.randint(1, most))]


def listed(rng, makes, most=3):
    parts = some(rng, makes, most)
    return parts[0] if len(parts) == 1 else "{ " + ", ".join(parts) + " }"


def maybe(rng, text, chance=0.5):
    return text + " " if rng.random() < chance else ""


def interface(rng):
    return rng.choice(INTERFACES)


def address(rng):
    return rng.choice(INNER + OUTER)


def prefix(rng):
    end = address(rng)
    return f"{end}/{rng.choice([0, 8, 24, 31, 32] if '.' in end else [0, 47, 48, 64, 128])}"


def element(rng):
    return rng.choice([address, prefix, lambda _: "<t>", lambda _: "<u>", lambda _: "$a", lambda _: f"inet4({interface(rng)})"])(rng)


def ports(rng):
    low, high = sorted(rng.choices(PORTS, k=2))
    return rng.choice([str(low), f"{low}-{high}"])


def port(rng):
    return rng.choice([ports(rng), ports(rng), "$p", "ssh", "https"])


def end(rng, chance):
    """Addresses and maybe ports."""
    return rng.choice(["any", listed(rng, element), listed(rng, element)]) + " " + maybe(rng, "port " + listed(rng, port), chance)


def filtered(rng):
    proto = rng.choice(["", "", "proto tcp ", "proto udp ", "proto tcp flags S/SA ", "proto icmp icmp-type 8 code 0 ", "proto { tcp, udp } ", "proto 47 "])
    chance = 0.01 if "icmp" in proto or "47" in proto else 0.3
    ends = rng.choice(["all", f"from {end(rng, chance)}", f"to {end(rng, chance)}", f"from {end(rng, chance)}to {end(rng, chance)}"])
    return maybe(rng, f"family {rng.choice(['inet4', 'inet6'])}", 0.1) + proto + ends


def rule(rng):
    kind = rng.choice(["pass", "pass", "pass stateful", "pass stateful-all", "block", "block return", "block return-rst", "block return-icmp"])
    bound = maybe(rng, rng.choice(["in", "out"]), 0.4) + maybe(rng, "final", 0.3) + maybe(rng, f"on {interface(rng)}", 0.3)
    return f"{kind} {bound}{filtered(rng)} " + maybe(rng, 'apply "proc"', 0.2)


def map_statement(rng):
    on = interface(rng)
    inner, outer = rng.choice([(0, 0), (1, 1), (2, 1), (3, 3)])
    return rng.choice([
        f"map {on} dynamic 10.1.0.0/16 -> {OUTER[outer % 3]}",
        f"map {on} dynamic proto udp {INNER[inner % 3]} -> {OUTER[outer % 3]} port {ports(rng)}",
        f"map {on} dynamic proto tcp {INNER[inner % 3]} port 22 <- {OUTER[outer % 3]} port 9022",
        f"map {on} dynamic {INNER[inner]} <-> {OUTER[outer]}",
        f"map {on} static 10.1.1.0/24 {rng.choice(['->', '<-', '<->'])} 203.0.113.0/24",
        f"map {on} static algo npt66 fd01:203:405::/48 <-> 2001:db8:1::/48",
    ]) + maybe(rng, " pass " + filtered(rng), 0.2)


def conf(rng):
    """A configuration with a table, a procedure, variables, maps, groups and a ruleset."""
    statements = [
        f"$a = {listed(rng, address)}", f"$p = {listed(rng, lambda it: str(it.choice(PORTS)))}",
        f'table <t> type {rng.choice(["ipset", "lpm", "const"])} file "t.txt"', "table <u> type lpm",
        'procedure "proc" { ' + rng.choice(["log: npflog0", 'normalize: "min-ttl" 64, "max-mss" 1000, "no-df"', 'log: npflog0; normalize: "no-df"']) + " }",
        *rng.sample(['alg "icmp"', "set state.tcp.strict_order_rst on", "set state.key.interface off", "set bpf.jit on", "set portmap.min_port 40000",
                      "set portmap.max_port 50000", "set ip6.reassembly on", "set state.tcp.timeout.half_close 7", "set state.generic.timeout.new 4294967"], rng.randint(0, 4)),
        *(map_statement(rng) for _ in range(rng.randint(0, 3))),
    ]
    for number in range(rng.randint(0, 2)):
        bound = maybe(rng, rng.choice(["in", "out"]), 0.3) + maybe(rng, f"on {interface(rng)}", 0.5)
        statements.append(f'group "g{number}" {bound}{{\n' + "\n".join("  " + it for it in some(rng, rule, 4)) + "\n}")
    statements.append('group default {\n  ruleset "dyn"\n' + "\n".join("  " + it for it in some(rng, rule, 4)) + "\n}")
    return ("\n".join(statements) + "\n").encode()


def ifaces(rng):
    return "".join(f"{it} {rng.choice(INNER[:3])} {' '.join(some(rng, address))}\n" for it in INTERFACES).encode()


def table(rng):
    makes = rng.choice([address, address, address, prefix])
    return "".join(f"{makes(rng)}\n" for _ in range(rng.randint(0, 12))).encode()


def change(rng):
    return rng.choice([
        lambda: f"rule dyn add {rule(rng)}", lambda: f"rule dyn rem-id {rng.randint(1, 3)}", lambda: "rule dyn flush",
        lambda: f"table {rng.choice('tu')} add {address(rng)}", lambda: f"table {rng.choice('tu')} rem {address(rng)}",
        lambda: 'reload "other.conf"', lambda: f"expire {rng.choice([0, 100, 1000, 4000000000])}",
    ])()


def script(rng, captures):
    """A script over captures: lines of them, and phases with changes."""
    lines = [f'capture {interface(rng)} {rng.choice(["in", "out"])} "{it}"' for it in captures]
    for _ in range(rng.randint(0, 4)):
        lines.append("phase")
        lines += [change(rng) for _ in range(rng.randint(0, 3))]
        lines.append(f"packets {rng.choice(['rest', '1', '3', '10'])}")
    return ("\n".join(lines) + "\n").encode()


def upper(rng, source, destination):
    """A packet of some protocol between these addresses."""
    sport, dport = rng.choices(PORTS, k=2)
    flags = rng.choice(["S", "SA", "A", "FA", "R", "RA", "PA", ""])
    scale = rng.choice([b"", b"\x03\x03\x07\x00", b"\x02\x04\x05\xb4", b"\x02\x04\x05"[: rng.randint(1, 3)].ljust(4, b"\0")])
    options = {"ttl": rng.choice([0, 1, 63, 64, 255]), "no_fragments": rng.random() < 0.3}
    data = bytes(rng.choice([0, 0, 1, 5, 30]))
    return rng.choice([
        lambda: udp(source, sport, destination, dport, data, **options),
        lambda: tcp(source, sport, destination, dport, flags, rng.choice([0, 1, 1000, 2**32 - 1]), rng.choice([0, 1001, 7001]), 1000, data, scale, **options),
        lambda: icmp(rng, source, destination),
        lambda: ip(source, destination, rng.choice([0, 43, 44, 47, 50, 51, 60, 132, 255]), bytes(rng.randint(0, 24))),
    ])()


def icmp(rng, source, destination):
    """An echo message, or an error that quotes a packet."""
    if ":" in source or rng.random() < 0.5:
        return echo(source, destination, rng.choice([0, 8]), rng.choice([7, 40000])) if ":" not in source else ip(source, destination, 58, bytes(8))
    quoted = udp(destination, rng.choice(PORTS), rng.choice(OUTER[:3]), rng.choice(PORTS))[: rng.choice([19, 20, 27, 28])]
    front = struct.pack(">BBHI", rng.choice([3, 11, 12, 5]), 3, 0, 0)
    body = front[:2] + struct.pack(">H", checksum(front + quoted)) + front[4:] + quoted
    return ip(source, destination, 1, body)


def fragments(rng, source, destination):
    """Pieces of a datagram (RFC 791, RFC 8200): whole, or with one missing, again or shifted."""
    v6, identification = ":" in source, rng.randint(0, 3)
    front = struct.pack(">HHH", rng.choice(PORTS), rng.choice(PORTS), 48)
    whole = summed(source, destination, 17, front, bytes(40))
    pieces = []
    for place in range(0, 48, 16):
        end_of, at = place + 16, place + rng.choice([0, 0, 0, 8])
        part, more = whole[place:end_of], end_of < 48
        if v6:
            head = struct.pack(">BBHI", 17, 0, at | more, identification)
            pieces.append(ip(source, destination, 44, head + part))
        else:
            pieces.append(fragment_v4(source, destination, identification, at // 8 | more << 13, part))
    rng.shuffle(pieces)
    return pieces[: rng.choice([2, 3, 3])] + pieces[: rng.choice([0, 0, 1])]


def fragment_v4(source, destination, identification, field, part):
    front = struct.pack(">BBHHHBB", 0x45, 0, 20 + len(part), identification, field, 64, 17)
    ends = packed(source) + packed(destination)
    return front + struct.pack(">H", checksum(front + b"\0\0" + ends)) + ends + part


def packets(rng):
    """Packets between the few hosts, some of them there and back, in fragments, or with bytes behind them."""
    found = []
    for _ in range(rng.randint(0, 12)):
        v6 = rng.random() < 0.2
        ends = [rng.choice([it for it in pool if (":" in it) == v6]) for pool in (INNER, OUTER)]
        source, destination = ends if rng.random() < 0.6 else ends[::-1]
        found += fragments(rng, source, destination) if rng.random() < 0.15 else [upper(rng, source, destination)]
    return [it + bytes(rng.choice([0, 0, 0, 6])) for it in found]


def capture(rng):
    """A capture of some link, order of bytes and fraction of a second."""
    order, magic, link = rng.choice("<>"), rng.choice([0xA1B2C3D4, 0xA1B23C4D]), rng.choice([ETHERNET, RAW])
    whole, second = struct.pack(order + "IHHiIII", magic, 2, 4, 0, 0, 262144, link), rng.choice([0, 1, 1000])
    for packet in packets(rng):
        record = frame(packet, rng.choice([None, None, None, None, 0x8100])) if link == ETHERNET else packet
        whole += struct.pack(order + "IIII", second, rng.choice([0, 1, 999_999, 10**9]), len(record), len(record)) + record
        second += rng.choice([0, 1, 1, 40])
    return whole


DEFAULT, WHOLE = "group default {\n", "\n}\n"
CONNECTION = "conn 0411000113880035.0000000000000000.000000000a{n:06x}.0000000000000000.00000000c0000201 - - o0 1 -/-/0 -/-/0 -,-,0,-\n"
# A file, what stands before the lines, the line with its number n, the number before m, and bytes a, b and c of n, and what stands behind.
SWELLING = [
    ("c", "", "$v{n} = 10.{a}.{b}.{c}\n", DEFAULT + "pass all" + WHOLE),
    ("c", "$v0 = 10.0.0.1\n", "$v{n} = {{ ifaddrs(wm0), $v{m} }}\n", DEFAULT + "pass from $v9" + WHOLE),
    ("c", "", "$v{n} = inet4(wm0)\n", DEFAULT + "pass from $v9" + WHOLE),
    ("c", DEFAULT, "pass from inet4(wm0)\n", WHOLE),
    ("c", DEFAULT + "pass all" + WHOLE, "map wm0 dynamic inet4(wm0) -> inet4(wm0)\n", ""),
    ("c", "$v0 = 10.0.0.1\n", "$v{n} = $v{m}\n", DEFAULT + "pass from $v9" + WHOLE),
    ("c", "$v0 = 10.0.0.1\n", "$v{n} = {{ $v{m}, 10.{a}.{b}.{c} }}\n", DEFAULT + "pass from $v9" + WHOLE),
    ("c", "$v0 = 10.0.0.1\n", "$v{n} = {{ $v{m}, $v{m} }}\n", DEFAULT + "pass from $v9" + WHOLE),
    ("c", "$v = { 10.0.0.1, 10.0.0.2 }\n" + DEFAULT + "pass from {", "$v,", "$v }" + WHOLE),
    ("c", DEFAULT + "pass from {", "10.{a}.{b}.{c},", "10.0.0.1 }" + WHOLE),
    ("c", DEFAULT + "pass to any port {", "{n},", "1 }" + WHOLE),
    ("c", DEFAULT + "pass proto {", "{c},", "1 } all" + WHOLE),
    ("c", DEFAULT, "pass from 10.{a}.{b}.{c} to any port {c}\n", WHOLE),
    ("c", DEFAULT, "ruleset \"r{n}\"\n", WHOLE),
    ("c", DEFAULT + "pass all" + WHOLE, "group \"g{n}\" {{ pass from 10.{a}.{b}.{c} }}\n", ""),
    ("c", DEFAULT + "pass all" + WHOLE, "group \"g{n}\" on e{n} {{ }}\n", ""),
    ("c", DEFAULT + "pass from <t9>" + WHOLE, "table <t{n}> type lpm file \"t.txt\"\n", ""),
    ("c", DEFAULT + "pass all" + WHOLE, "map wm0 dynamic 10.0.0.0/8 -> 203.0.113.1 pass from 10.{a}.{b}.{c}\n", ""),
    ("c", DEFAULT + "pass all apply \"p9\"" + WHOLE, "procedure \"p{n}\" {{ log: npflog0 }}\n", ""),
    ("c", DEFAULT + "pass all apply \"p\"" + WHOLE + "procedure \"p\" {", "log: npflog{c}; normalize: \"no-df\", \"min-ttl\" {c};", "}"),
    ("c", DEFAULT + "pass all" + WHOLE, ";", ""),
    ("c", DEFAULT + "pass all" + WHOLE, "\\\n", ""),
    ("c", DEFAULT + "pass all" + WHOLE + "set a.b ", ":", ""),
    ("c", DEFAULT + "pass all" + WHOLE + "set a.b ", "1:", ""),
    ("c", DEFAULT + "pass all" + WHOLE + "set a.b ", "a-", ""),
    ("c", DEFAULT + "pass all" + WHOLE + "set a.b ", "0", ""),
    ("c", "group \"", "g", "\" { pass all }\n" + DEFAULT + WHOLE),
    ("c", DEFAULT + "pass all" + WHOLE, "{{", ""),
    ("s", "phase\n", "rule dyn add pass from 10.{a}.{b}.{c}\n", ""),
    ("s", "phase\n", "table u add 10.{a}.{b}.{c}\n", ""),
    ("s", "phase\n", "reload \"c\"\n", ""),
    ("s", "phase\nrule dyn add pass from {", "10.{a}.{b}.{c},", "10.0.0.1 }"),
    ("s", "", "phase\n", ""),
    ("s", "phase\n", "expire {n}\n", ""),
    ("s", "", "capture wm0 in \"k\"\n", ""),
    ("s", "", "capture e{n} in \"k\"\n", ""),
    ("s", "phase\nexpire 1.", "0", ""),
    ("s", "", " \t\n#\n", ""),
    ("i", "", "e{n} 10.{a}.{b}.{c}\n", ""),
    ("i", "wm0", " 10.{a}.{b}.{c}", "\n"),
    ("i", "wm0", " fd00::{n:x}", "\n"),
    ("t.txt", "", "10.{a}.{b}.{c}\n", ""),
    ("t.txt", "", "2001:db8:{n:x}::/48\n", ""),
    ("t.txt", "", "10.0.0.1 # \n", ""),
    ("f", "npf-connections 1\n", CONNECTION, ""),
    ("f", "npf-connections 1\nif wm0\n", CONNECTION, ""),
    ("f", "npf-connections 1\n", "if e{n}\n", ""),
]


def repeated(head, line, tail, most):
    """A text of one line as often as it stays within so many bytes."""
    parts, size, n = [head], len(head) + len(tail), 0
    while True:
        n += 1
        part = line.format(n=n, m=n - 1, a=n >> 16 & 255, b=n >> 8 & 255, c=n & 255)
        size += len(part)
        if size > most:
            return "".join([*parts, tail]).encode()
        parts.append(part)


def swollen(rng, sizes):
    """Files of which one or two have as many lines as come to one of these sizes."""
    files = {"c": b'$i = inet4(wm0)\ntable <u> type lpm file "t.txt"\ngroup default { pass from { $i, <u> }; ruleset "dyn" }\n', "i": b"wm0 10.0.0.1\n",
             "t.txt": b"", "k": capture(rng), "s": b'capture wm0 in "k"\n', "f": b"npf-connections 1\nif wm0\n"}
    for name, head, line, tail in rng.sample(SWELLING, rng.choice([1, 1, 2])):
        files[name] = repeated(head, line, tail, rng.choice(sizes))
    return files
