#!/usr/bin/env python3
"""Prints the place of each crate of crates.txt, one above the highest of its own crates that it stands on, and one longest chain of
crates. The status is 1 where that chain has more than eight."""
import pathlib
import sys

TOP = pathlib.Path(__file__).resolve().parent.parent
MOST = 8


def crates():
    """The crates of the repository that each stands on, by its name."""
    lines = [line.split("#")[0].partition(":") for line in (TOP / "crates.txt").read_text().splitlines()]
    below = {head.split()[0]: libraries.split() for head, _, libraries in lines if head.strip()}
    return {name: [library for library in libraries if library in below] for name, libraries in below.items()}


def longest_chains(below):
    """A longest chain from each crate down, by the crate's name."""
    chains = {}

    def chain(name):
        if name not in chains:
            chains[name] = [name, *max((chain(library) for library in below[name]), key=len, default=[])]
        return chains[name]

    for name in below:
        chain(name)
    return chains


def main():
    chains = longest_chains(crates())
    for name in sorted(chains, key=lambda name: (len(chains[name]), name)):
        print(f"{len(chains[name])} {name}")
    longest = max(chains.values(), key=len)
    print(f"{len(longest)} crates: {' > '.join(longest)}")
    return 1 if len(longest) > MOST else 0


if __name__ == "__main__":
    sys.exit(main())
