#!/usr/bin/env python3
"""Goes through all rows of vest_rows with the program as it stands, where a run of one thread needs no other, and once more with such a
run made by threads too, as runs of several are. Status 1 where a row differs from what it says, by the one or by the other.

tools/lone_by_threads.py

Nothing is proved: `rt try` compiles both in a scratch copy, as tools/wrong_bodies.py does. No row is left out, so each goes on for minutes."""
import sys

import wrong_bodies as bodies

ROWS = "vest_rows"
SECONDS = "3600"
ALONE = bodies.Body("alone", ROWS, ROWS, [])
BY_THREADS = bodies.Body("by_threads", "vest_cli", ROWS, [("src/waiting.rt", "image.threads.len() > 1", "image.threads.len() > 0")])


def main():
    ways = [ALONE, BY_THREADS]
    ended, printed = bodies.run_all(ROWS, ways, [], SECONDS)
    wrong = 0
    for way in ways:
        lines = printed[way.name]
        end = ended.get(way.name, "no answer")
        print(f"{way.name}: {lines[-1] if lines else 'nothing'}; {end}")
        print("".join(f"    {line}\n" for line in lines if bodies.is_difference(line)), end="")
        wrong += end != bodies.AGREED
    return 1 if wrong else 0


if __name__ == "__main__":
    sys.exit(main())
