#!/usr/bin/env python3
"""Runs the built program on damaged files: COUNT files from a seed (default 1,000,000), each an accepted image of either version or
a translated file of either version, with hints or without, with bytes changed, cut, joined to another, its header at its limits, or words exchanged.
Each run has a budget of 10,000 steps. It has to end with the refusal, and the line, that a reading of the format expects that is written
here apart from the program; a file that this reading accepts has to run, and nothing else may write to standard output. Where the
hints or the image of a translated file are others than those whose tail is known, what its tail is compared with isn't told.

With --orders the files are orders of runs of these images, damaged so, and each is replayed with its image. What the format refuses
has to be refused so; behind that `replay` ends with 0, 4 or 5, or refuses the order as one that can't be driven (11) or has another end
(12).

tools/damaged_files.py PROGRAM [--orders] [COUNT [SEED]]"""
import collections
import concurrent.futures
import os
import pathlib
import random
import signal
import struct
import subprocess
import sys
import tempfile

RAN = {0, 4, 5}
REFUSED = 3
IMAGE, TRANSLATED, ORDER = b"VXIM", b"VXTR", b"VXOR"
TARGETS = {1: "original", 2: "byteword"}
MOST_THREADS = {1: 16, 2: 32}
MOST_BYTES = {1: 1 << 20, 2: 1 << 22}
START_BYTES = {1: 8, 2: 64}
MOST_SECTIONS, MOST_ENTRIES, MOST_HINTS = 64, 4096, 32768
MOST_PICKS, MOST_INPUT, MOST_COUNT = 4194304, 65536, 1_000_000_000_000
ADDRESS_END = 0x80000000
SECONDS = 20
PAGE = 512
CHUNK = 2000
LIMITS = [0, 1, 2, 0x7F, 0x80, 0xFF, 0x1FF, 0x200, 0x7FFF, 0x8000, 0xFFFF, 0x7FFFFFFF, 0x80000000, 0xFFFFFFFF]


def image(version, threads, sections, entries=()):
    """An image: threads (PC, SP), sections (address, size, writable, bytes), further entries."""
    head = IMAGE + struct.pack("<HHHH", version, len(threads), len(sections), len(entries))
    body = b"".join(struct.pack("<II", pc, sp) + bytes(START_BYTES[version] - 8) for pc, sp in threads)
    body += b"".join(struct.pack("<IIII", address, size, len(data), writable) for address, size, writable, data in sections)
    body += b"".join(struct.pack("<I", entry) for entry in entries)
    return head + body + b"".join(data for _, _, _, data in sections)


def accepted():
    """Images that are accepted: their code is the sample's, a loop, a case, a call, strings and two threads."""
    stack = (0x1000, PAGE, 1, b"")
    codes = [
        "D00550BC02BC01",
        "D08F0A00000050D651F550FBD05150BC01",
        "D00150CF5001020B0010001500D00950BC01D00A50BC01D00B50BC01D00C50BC01",
        "FB00AF05D05E50BC010000D0AD045104",
        "28049F001000009F01100000D05350BC01",
        "BC04C03050BC02BC01",
        "BC03D5501904BC0211F6BC01",
    ]
    for text in codes:
        code = bytes.fromhex(text)
        for version in (1, 2):
            yield image(version, [(0x200, 0x1200)], [(0x200, PAGE, 0, code), stack])
            yield image(version, [(0x200, 0x1200), (0x200, 0x1100)], [(0x200, PAGE, 0, code), stack], [0x200])


def with_hints(version, data, tail, hints):
    return TRANSLATED + struct.pack("<III", version, len(data), len(hints)) + data + b"".join(struct.pack("<I", hint) for hint in hints) + tail


def orders(program, images):
    """Of each image, its number of threads and orders of its runs: whole, cut short by its budget, and with input."""
    found = []
    with tempfile.TemporaryDirectory() as room:
        source, target = pathlib.Path(room, "image"), pathlib.Path(room, "order")
        for data in images:
            source.write_bytes(data)
            made = []
            for options, text in [([], b""), (["--budget", "9"], b""), (["--interpret", "0:0-FFFFFFFF"], b"ab")]:
                subprocess.run([program, "run", *options, "--order", target, source], input=text, capture_output=True, check=False)
                made.append(target.read_bytes())
            found.append((data, struct.unpack_from("<H", data, 6)[0], made))
    return found


def tails(program, images):
    """The tail of the translated file of each version and image."""
    found = {}
    with tempfile.TemporaryDirectory() as room:
        source, target = pathlib.Path(room, "image"), pathlib.Path(room, "translated")
        for data in images:
            source.write_bytes(data)
            for version, name in TARGETS.items():
                subprocess.run([program, "translate", source, target, "--target", name], check=True)
                found[version, data] = target.read_bytes()[16 + len(data):]
    return found


# ---- what the formats say of a file
def longwords(data, at, count):
    return struct.unpack_from(f"<{count}I", data, at)


def section_is_bad(start, size, stored, flags):
    return start % PAGE != 0 or size == 0 or stored > size or start + size > ADDRESS_END or flags > 1


def pages(start, size):
    return range(start // PAGE, -(-(start + size) // PAGE))


def first_overlap(rows):
    """The places of the first two sections that share a page."""
    for one, row in enumerate(rows):
        for other in range(one + 1, len(rows)):
            a, b = pages(*row[:2]), pages(*rows[other][:2])
            if a.start < b.stop and b.start < a.stop:
                return one, other
    return None


def refusal_of_counts(data, version, threads, sections, entries):
    if version not in MOST_THREADS:
        return [3, version]
    for is_so, numbers in [(threads == 0, [4]), (threads > MOST_THREADS[version], [5, threads]), (sections > MOST_SECTIONS, [6, sections]),
                           (entries > MOST_ENTRIES, [12, entries])]:
        if is_so:
            return numbers
    return None


def refusal_of_rows(version, rows, entries):
    for place, row in enumerate(rows):
        if section_is_bad(*row):
            return [7, place]
    overlap = first_overlap(rows)
    if overlap:
        return [8, *overlap]
    total = sum(len(pages(*row[:2])) * PAGE for row in rows)
    if total > MOST_BYTES[version]:
        return [9, total]
    code = [pages(*row[:2]) for row in rows if row[3] == 0]
    for place, entry in enumerate(entries):
        if not any(entry // PAGE in places for places in code):
            return [10, place]
    return None


def refusal_of_image(data):
    """The numbers of an image's refusal, or none where it is accepted."""
    if len(data) < 12:
        return [1, len(data)]
    if data[:4] != IMAGE:
        return [2]
    version, threads, sections, entries = struct.unpack_from("<HHHH", data, 4)
    refusal = refusal_of_counts(data, version, threads, sections, entries)
    if refusal:
        return refusal
    rows_at = 12 + START_BYTES[version] * threads
    end = rows_at + 16 * sections + 4 * entries
    if len(data) < end:
        return [1, len(data)]
    rows = [longwords(data, rows_at + 16 * place, 4) for place in range(sections)]
    refusal = refusal_of_rows(version, rows, longwords(data, rows_at + 16 * sections, entries))
    end += sum(row[2] for row in rows)
    if refusal:
        return refusal
    return [1, len(data)] if len(data) < end else [11, end] if len(data) > end else None


def refusal_of_tail(at, found, wanted):
    """The numbers of the refusal of a tail that stands at that place of its file."""
    words = min(len(found), len(wanted)) // 4
    for place, (one, other) in enumerate(zip(longwords(found, 0, words), longwords(wanted, 0, words))):
        if one != other:
            return [5, place, one, other]
    if len(found) < len(wanted):
        return [1, at + len(found)]
    return [6, at + len(wanted)] if len(found) > len(wanted) else None


def refusal_of_order(data, threads):
    """The numbers by which the format refuses an order of so many threads, or none."""
    if len(data) < 20:
        return [1, len(data)]
    if data[:4] != ORDER:
        return [2]
    version, found, picks, length = longwords(data, 4, 4)
    for is_so, numbers in [(version != 1, [3, version]), (found != threads, [4, found]), (picks > MOST_PICKS, [5, picks]),
                           (length > MOST_INPUT, [6, length])]:
        if is_so:
            return numbers
    picks_at = 20 + 9 * threads + length
    end = picks_at + 9 * picks
    if len(data) != end:
        return [1, len(data)] if len(data) < end else [7, end]
    ends = [struct.unpack_from("<QB", data, 20 + 9 * thread) for thread in range(threads)]
    bad = [[8, thread] for thread, (_, flag) in enumerate(ends) if flag > 1]
    bad += [[9, thread] for thread, (count, _) in enumerate(ends) if count > MOST_COUNT]
    bad += [[10, place] for place in range(picks) if data[picks_at + 9 * place] >= threads]
    return bad[0] if bad else None


def order_agrees(data, threads, status, line, has_output):
    """Whether a replay ended as the reading of its order expects it."""
    if has_output and status not in RAN:
        return False
    refusal = refusal_of_order(data, threads)
    if refusal:
        return (status, line) == (REFUSED, f"refused order {' '.join(map(str, refusal))}\n")
    undriven = ["refused order 11\n", *(f"refused order 12 {thread}\n" for thread in range(threads))]
    return status in RAN or status == REFUSED and line in undriven


UNTOLD = "untold"


def refusal_of_translated(data, known):
    """The numbers of a translated file's refusal, none where it is accepted, or that it isn't told. `known` has tails by versions and images."""
    if len(data) < 16:
        return [1, len(data)]
    version, length, hints = longwords(data, 4, 3)
    if version not in TARGETS:
        return [3, version]
    if hints > MOST_HINTS:
        return [7, MOST_HINTS]
    tail = 16 + length + 4 * hints
    if len(data) < tail:
        return [1, len(data)]
    inner = data[16:16 + length]
    refusal = refusal_of_image(inner)
    if refusal:
        return [4, *refusal]
    hints = longwords(data, 16 + length, hints)
    for place in range(1, len(hints)):
        if hints[place - 1] >= hints[place]:
            return [7, place]
    if (version, inner) not in known or any(hint != 0x200 for hint in hints):
        return UNTOLD
    return refusal_of_tail(tail, data[tail:], known[version, inner])


def expected(data, known):
    """The line that a file has to be refused with, none where it has to run, or that it isn't told."""
    is_translated = data[:4] == TRANSLATED
    refusal = refusal_of_translated(data, known) if is_translated else refusal_of_image(data)
    if refusal is None or refusal == UNTOLD:
        return refusal
    return f"refused {'translated' if is_translated else 'image'} {' '.join(map(str, refusal))}\n"


def agrees(status, line, has_output, wanted):
    """Whether a run ended as the reading expects it."""
    ran = status in RAN
    if has_output and not ran:
        return False
    if wanted == UNTOLD:
        return ran or status == REFUSED
    return ran if wanted is None else (status, line) == (REFUSED, wanted)


def damaged(rng, files):
    """One damaged file."""
    data = bytearray(rng.choice(files))
    for _ in range(rng.randint(1, 4)):
        way = rng.randrange(6)
        place = rng.randrange(len(data) + 1)
        if way == 0 and data:
            data[place % len(data)] = rng.randrange(256)
        elif way == 1:
            del data[place:]
        elif way == 2:
            data += rng.choice(files)[place:]
        elif way == 3 and len(data) >= 8:
            at = 2 * rng.randrange(min(len(data), 64) // 2 - 1)
            value = rng.choice(LIMITS)
            data[at:at + 4] = struct.pack("<I", value)
        elif way == 4 and len(data) >= 8:
            one, other = (4 * rng.randrange(len(data) // 4) for _ in range(2))
            data[one:one + 4], data[other:other + 4] = data[other:other + 4], data[one:one + 4]
        else:
            data[place:place] = bytes(rng.randrange(256) for _ in range(rng.randint(1, 8)))
    return bytes(data)


class Runner:
    """Runs the program on one file after the other, in a folder of its own. A new process that is made in this way costs less than one
    of `subprocess`."""

    def __init__(self, program, room, words=("run", "--budget", "10000")):
        self.program, self.name, self.out = program, os.path.join(room, "file"), os.path.join(room, "out")
        self.report = os.path.join(room, "report")
        self.words = [program, *words, self.name]
        write = os.O_WRONLY | os.O_CREAT | os.O_TRUNC
        self.streams = [(os.POSIX_SPAWN_OPEN, 0, os.devnull, os.O_RDONLY, 0),
                        (os.POSIX_SPAWN_OPEN, 1, self.out, write, 0o600),
                        (os.POSIX_SPAWN_OPEN, 2, self.report, write, 0o600)]

    def run(self, data):
        """The status, the report, and whether anything was written to standard output."""
        with open(self.name, "wb") as file:
            file.write(data)
        child = os.posix_spawn(self.program, self.words, os.environ, file_actions=self.streams)
        signal.signal(signal.SIGALRM, lambda *_: os.kill(child, signal.SIGKILL))
        signal.alarm(SECONDS)
        _, ended = os.waitpid(child, 0)
        signal.alarm(0)
        with open(self.report, encoding="utf-8", errors="replace") as file:
            report = file.read()
        return os.waitstatus_to_exitcode(ended), report, os.stat(self.out).st_size > 0


def runs(program, files, known, seed, count):
    """How often each status came, and the files that were not answered as they have to be. The status of a run that a signal ended, as
    one that does not end by itself, is below 0."""
    rng = random.Random(seed)
    statuses, wrong = collections.Counter(), []
    with tempfile.TemporaryDirectory(dir="/dev/shm") as room:
        runner = Runner(program, room)
        for _ in range(count):
            data = damaged(rng, files)
            status, report, has_output = runner.run(data)
            statuses[status] += 1
            if not agrees(status, report, has_output, expected(data, known)):
                wrong.append((status, report, data.hex()))
    return statuses, wrong


def replays(program, stored, seed, count):
    """The same of damaged orders, each replayed with its image."""
    rng = random.Random(seed)
    statuses, wrong = collections.Counter(), []
    with tempfile.TemporaryDirectory(dir="/dev/shm") as room:
        image_name = os.path.join(room, "image")
        runner = Runner(program, room, ("replay", image_name))
        for _ in range(count):
            picture, threads, made = rng.choice(stored)
            pathlib.Path(image_name).write_bytes(picture)
            data = damaged(rng, made)
            status, report, has_output = runner.run(data)
            statuses[status] += 1
            if not order_agrees(data, threads, status, report, has_output):
                wrong.append((status, report, data.hex() + " of " + picture.hex()))
    return statuses, wrong


def try_orders(program, count, seed):
    stored = orders(program, list(accepted()))
    statuses, wrong = collections.Counter(), []
    with concurrent.futures.ProcessPoolExecutor() as pool:
        chunks = [(f"{seed} {first}", min(CHUNK, count - first)) for first in range(0, count, CHUNK)]
        for found, bad in pool.map(replays, [program] * len(chunks), [stored] * len(chunks), *zip(*chunks)):
            statuses.update(found)
            wrong += bad
    print(f"{count} orders of {len(stored)} images:", ", ".join(f"status {s} {n}" for s, n in sorted(statuses.items(), key=str)))
    for status, report, text in wrong[:20]:
        print(f"wrong: {status} {report.strip()} {text}")
    return 1 if wrong else 0


def main():
    numbers = [word for word in sys.argv[2:] if word != "--orders"]
    program = os.path.abspath(sys.argv[1])
    count = int(numbers[0]) if numbers else 1_000_000
    seed = int(numbers[1]) if len(numbers) > 1 else 1
    if "--orders" in sys.argv:
        return try_orders(program, count, seed)
    known = tails(program, list(accepted()))
    files = [*(data for version, data in known),
             *(with_hints(version, data, tail, hints) for (version, data), tail in known.items() for hints in ([], [0x200]))]
    statuses, wrong = collections.Counter(), []
    with concurrent.futures.ProcessPoolExecutor() as pool:
        chunks = [(f"{seed} {first}", min(CHUNK, count - first)) for first in range(0, count, CHUNK)]
        for found, bad in pool.map(runs, [program] * len(chunks), [files] * len(chunks), [known] * len(chunks), *zip(*chunks)):
            statuses.update(found)
            wrong += bad
    print(f"{count} files made from {len(files)}:", ", ".join(f"status {s} {n}" for s, n in sorted(statuses.items(), key=str)))
    for status, report, text in wrong[:20]:
        print(f"wrong: {status} {report.strip()} {text} expected {expected(bytes.fromhex(text), known)}")
    return 1 if wrong else 0


if __name__ == "__main__":
    sys.exit(main())
