"""Mutations of texts and captures: bytes flipped, cut out, put in, taken from another file, long lines and big numbers.

Each takes a source of chance, `random.Random`, the bytes, and bytes of another file, and returns other bytes.
"""

import re
import struct

BYTES = [0x00, 0x09, 0x0A, 0x0D, 0x20, 0x22, 0x23, 0x24, 0x2D, 0x3A, 0x3B, 0x3C, 0x5C, 0x7B, 0x7D, 0x7F, 0x80, 0xC3, 0xFF]
NUMBERS = [0, 1, 2, 31, 32, 33, 63, 64, 65, 127, 128, 129, 255, 256, 4096, 65535, 65536, 262143, 262144, 262145, 2**31 - 1, 2**31, 2**32 - 1, 2**32,
           2**63, 2**64 - 1, 2**64, 10**30]
LONG = [300, 4_097, 70_000, 4_194_304, 4_194_305]
WORDS = re.compile(rb"[A-Za-z0-9_.:$<>/-]+|[{}(),;=\"]")


def place_in(rng, data):
    return rng.randint(0, len(data))


def span_in(rng, data, most=40):
    at = place_in(rng, data)
    return at, min(len(data), at + rng.randint(1, most))


def flip_bit(rng, data, other):
    if not data:
        return data
    at = rng.randrange(len(data))
    return data[:at] + bytes([data[at] ^ 1 << rng.randrange(8)]) + data[at + 1 :]


def put_byte(rng, data, other):
    at = place_in(rng, data)
    return data[:at] + bytes([rng.choice(BYTES)]) + data[at + rng.randint(0, 1) :]


def cut_end(rng, data, other):
    return data[: place_in(rng, data)]


def cut_out(rng, data, other):
    at, end = span_in(rng, data)
    return data[:at] + data[end:]


def repeat(rng, data, other):
    at, end = span_in(rng, data, 200)
    return data[:end] + data[at:end] * rng.choice([1, 1, 2, 10, 300]) + data[end:]


def splice(rng, data, other):
    at, (start, end) = place_in(rng, data), span_in(rng, other, 300)
    return data[:at] + other[start:end] + data[at:]


def cross(rng, data, other):
    return data[: place_in(rng, data)] + other[place_in(rng, other) :]


def change_number(rng, data, other):
    found = list(re.finditer(rb"\d+", data))
    if not found:
        return data
    it = rng.choice(found)
    return data[: it.start()] + str(rng.choice(NUMBERS)).encode() + data[it.end() :]


def change_word(rng, data, other):
    """Puts a word of this text or the other in the place of one, before or behind it."""
    here, there = list(WORDS.finditer(data)), WORDS.findall(other) + WORDS.findall(data)
    if not here:
        return data
    it, word = rng.choice(here), rng.choice(there)
    return rng.choice([data[: it.start()] + word + data[it.end() :], data[: it.start()] + word + b" " + data[it.start() :],
                       data[: it.start()] + data[it.end() :]])


def change_lines(rng, data, other):
    """Moves, doubles or drops a line, or takes one of the other text."""
    lines, others = data.split(b"\n"), other.split(b"\n")
    at = rng.randrange(len(lines))
    line = rng.choice([lines.pop(at), rng.choice(others), lines[at - 1] if lines else b""])
    for _ in range(rng.choice([0, 1, 1, 2, 70])):
        lines.insert(rng.randint(0, len(lines)), line)
    return b"\n".join(lines)


def change_ends(rng, data, other):
    return rng.choice([data.replace(b"\n", b"\r\n"), data.rstrip(b"\n"), data + b"\n" * rng.randint(1, 9), data.replace(b"\n", b" "), data.replace(b" ", b"\n")])


def long_run(rng, data, other):
    """Puts a run of one byte or one word in, which may be as long as a text can be."""
    at, size = place_in(rng, data), rng.choice(LONG)
    run = rng.choice([b" ", b"\n", b"a", b"1", b"\t#", b"{", b"10.0.0.1, ", b"$a ", b"pass all\n", b"\"", b"\0"])
    return data[:at] + run * (size // len(run)) + data[at:]


def change_field(rng, data, other):
    """Writes a number of 8, 16 or 32 bits at a place, as of a capture's header or a packet."""
    form = rng.choice([">B", "<H", ">H", "<I", ">I"])
    size = struct.calcsize(form)
    if len(data) < size:
        return data
    at = rng.randint(0, min(len(data) - size, rng.choice([24, 100, len(data)])))
    return data[:at] + struct.pack(form, rng.choice(NUMBERS) % 256**size) + data[at + size :]


COMMON = [flip_bit, put_byte, cut_end, cut_out, repeat, splice, cross]
TEXTS = COMMON + [change_number, change_number, change_word, change_word, change_word, change_lines, change_lines, change_ends]
CAPTURES = COMMON + [flip_bit, change_field, change_field, change_field]


def is_text(data):
    return b"\0" not in data[:4096]


def mutated(rng, data, other):
    """The bytes after one to four mutations."""
    kinds = TEXTS if is_text(data) else CAPTURES
    for _ in range(rng.choice([1, 1, 1, 2, 3, 4])):
        change = long_run if rng.random() < 0.02 else rng.choice(kinds)
        data = change(rng, data, other)
    return data
