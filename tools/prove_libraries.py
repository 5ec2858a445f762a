#!/usr/bin/env python3
"""Proves the repository's libraries side by side and keeps their work, so that checks above them are short.

tools/prove_libraries.py [JOBS] [CRATE ..]

`rt` runs in one clone wait for one another, so each library is proved in a folder of its own, over those below it; its out/
then comes back. With names of crates only these are proved, and what stands below them. What is proved already stays."""
import functools
import os
import pathlib
import shutil
import subprocess
import sys
import tempfile
import time
from concurrent.futures import FIRST_COMPLETED, ThreadPoolExecutor, wait

TOP = pathlib.Path(subprocess.check_output(["git", "rev-parse", "--show-toplevel"], text=True).strip())
SOURCES = ("src", "specs", "proofs")


def lines_of_crates():
    """Each crate's line of crates.txt, by its name."""
    lines = (TOP / "crates.txt").read_text().splitlines()
    return {line.split(":")[0].split()[0]: line for line in lines if ":" in line and not line.startswith("#")}


LINES = lines_of_crates()


@functools.lru_cache(None)
def below(crate):
    """The repository's crates below a crate."""
    direct = [name for name in LINES[crate].split(":")[1].split() if name in LINES]
    return frozenset(direct).union(*map(below, direct))


def folder(crate):
    return TOP / "crates" / crate


def is_library(crate):
    return (folder(crate) / "src/lib.rt").is_file()


@functools.lru_cache(None)
def size(crate):
    return sum(file.stat().st_size for part in SOURCES for file in (folder(crate) / part).rglob("*") if file.is_file())


def chain(crate, crates):
    """The size of the longest chain of crates from this one up."""
    above = [other for other in crates if crate in below(other)]
    return size(crate) + max((size(other) for other in above), default=0)


def link(source, target):
    """A second name for a file, or a copy where that can't be had."""
    try:
        os.link(source, target)
    except OSError:
        shutil.copy2(source, target)


def copy(crate, room, with_library):
    """A crate's sources in another folder, with its proved library if wanted."""
    to = room / "crates" / crate
    to.mkdir(parents=True)
    for part in SOURCES:
        if (folder(crate) / part).is_dir():
            shutil.copytree(folder(crate) / part, to / part)
    if with_library:
        shutil.copytree(folder(crate) / "out/rlib", to / "out/rlib", copy_function=link)


def prove(crate):
    """Proves a library in a folder of its own; its out/ comes back where it is proved."""
    begun = time.time()
    with tempfile.TemporaryDirectory() as place:
        room = pathlib.Path(place)
        subprocess.check_call(["git", "init", "-q"], cwd=room)
        shutil.copy(TOP / "HANDLES", room)
        needed = below(crate) | {crate}
        (room / "crates.txt").write_text("".join(line + "\n" for name, line in LINES.items() if name in needed))
        for name in needed:
            copy(name, room, name != crate)
        if (folder(crate) / "out").is_dir():
            shutil.copytree(folder(crate) / "out", room / "crates" / crate / "out")
        ran = subprocess.run(["rt", "lib", "--jobs", "1"], cwd=room / "crates" / crate, capture_output=True, text=True, check=False)
        if ran.returncode == 0:
            shutil.rmtree(folder(crate) / "out", ignore_errors=True)
            shutil.copytree(room / "crates" / crate / "out", folder(crate) / "out")
    return crate, ran, time.time() - begun


def main():
    words = sys.argv[1:]
    jobs = int(words.pop(0)) if words and words[0].isdigit() else len(os.sched_getaffinity(0))
    wanted = frozenset(words or LINES).union(*(below(name) for name in words or LINES))
    left = [name for name in wanted if is_library(name)]
    left.sort(key=lambda name: -chain(name, left))
    done, running = set(), set()
    with ThreadPoolExecutor(jobs) as pool:
        while left or running:
            for crate in [name for name in left if below(name) <= done][: jobs - len(running)]:
                left.remove(crate)
                running.add(pool.submit(prove, crate))
            if not running:
                sys.exit(f"not begun: {' '.join(left)}")
            ended, running = wait(running, return_when=FIRST_COMPLETED)
            for crate, ran, seconds in (future.result() for future in ended):
                print(f"{crate}: {'proved' if ran.returncode == 0 else 'NOT PROVED'} in {seconds:.0f} s", flush=True)
                if ran.returncode == 0:
                    done.add(crate)
                else:
                    print(ran.stdout[-2000:], flush=True)


if __name__ == "__main__":
    main()
