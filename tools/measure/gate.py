#!/usr/bin/env python3
"""Runs `rt ci` from nothing in a fresh clone of HEAD and prints its time, and the processor seconds of each crate: of its
library or program, of its tests, and of its must-fail edits. A kit whose `rt ci` keeps proofs between runs is asked for
--anew. The processes are sampled; each ends within a third of a second of its last sample. What rt ci printed goes to the
file that is named first, if any."""
import collections
import os
import re
import subprocess
import sys
import tempfile
import time

TICKS = os.sysconf("SC_CLK_TCK")
PAUSE = 0.3
PARTS = ("library or program", "tests", "edits")


def words_of(pid):
    with open(f"/proc/{pid}/cmdline", "rb") as file:
        return file.read().decode("utf-8", "replace").split("\0")


def label(pid, clone):
    """The crate and the part of the gate that a process works for, if any."""
    words, folder = words_of(pid), os.readlink(f"/proc/{pid}/cwd")
    if "--crate-name" not in words:
        return None
    crate = words[words.index("--crate-name") + 1]
    if folder.startswith(f"{clone}/"):
        return crate, "tests" if "--test" in words else "library or program"
    return (crate, "edits") if re.search(r"/rt-edits?-", folder) else None


def seconds(pid):
    with open(f"/proc/{pid}/stat") as file:
        fields = file.read().rpartition(")")[2].split()
    return fields[19], (int(fields[11]) + int(fields[12])) / TICKS


def sample(clone, seen):
    for pid in filter(str.isdigit, os.listdir("/proc")):
        try:
            start, spent = seconds(pid)
            known = seen.get((pid, start))
            of = known[0] if known else label(pid, clone)
            if of:
                seen[pid, start] = of, spent
        except OSError:
            pass


def from_nothing():
    help_text = subprocess.run(["rt", "help"], capture_output=True, text=True, check=False)
    return ["rt", "ci"] + ["--anew"] * ("--anew" in help_text.stdout + help_text.stderr)


def gate(clone, log):
    seen, begun = {}, time.time()
    run = subprocess.Popen(from_nothing(), cwd=clone, stdin=subprocess.DEVNULL, stdout=log, stderr=subprocess.STDOUT)
    while run.poll() is None:
        sample(clone, seen)
        time.sleep(PAUSE)
    return run.returncode, time.time() - begun, seen


def main():
    top = subprocess.check_output(["git", "rev-parse", "--show-toplevel"], text=True).strip()
    with tempfile.TemporaryDirectory() as folder, open(sys.argv[1] if sys.argv[1:] else f"{folder}/log", "w+") as log:
        clone = f"{folder}/clone"
        subprocess.check_call(["git", "clone", "-q", top, clone])
        status, wall, seen = gate(os.path.realpath(clone), log)
        log.seek(0)
        last = log.read().splitlines()[-1:]
    sums = collections.Counter()
    for of, spent in seen.values():
        sums[of] += spent
    print(f"{wall / 60:.1f} minutes on {len(os.sched_getaffinity(0))} processors: {' '.join(last)}")
    print(f"| Crate | {' | '.join(PARTS)} |")
    for crate in sorted({crate for crate, _ in sums}):
        print(f"| {crate} | {' | '.join(f'{sums[crate, part]:.0f}' for part in PARTS)} |")
    print(f"| all | {' | '.join(f'{sum(n for (_, of), n in sums.items() if of == part):.0f}' for part in PARTS)} |")
    return status


if __name__ == "__main__":
    sys.exit(main())
