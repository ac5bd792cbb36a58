"""Runs aql_bench and the Rust program `layers` in turn over one text, and prints their speeds and ratios.

usage: layers.py AQL_BENCH LAYERS FILE.txt ROUNDS [NAME ..]
"""
import pathlib
import re
import subprocess
import sys

NAMES = [
    "tokens", "digits", "dates", "addresses", "words", "folded", "names",
    "rows-rising", "rows-falling", "rows-mixed",
    "groups-10", "groups-1000", "groups-all", "rows-copied", "rows-sorted", "first-ten",
    "follows-few", "follows-all", "follows-tok-few", "follows-tok-all",
    "overlaps-few", "overlaps-all", "contains-few", "contains-all",
    "equal-numbers", "long-spans", "digit-spans", "dictionary-behind",
]
SPOKEN = re.compile(r"^(\S+): (\d+) MB/s, best of \d+, (\d+) us, came to (\d+)$")


def run(program, name, file, rounds):
    """The microseconds of the best round that a program prints for a bench, and what it came to."""
    ended = subprocess.run([program, name, file, rounds], stderr=subprocess.PIPE, text=True)
    said = SPOKEN.match(ended.stderr.strip())
    if ended.returncode != 0 or not said:
        sys.exit(f"{program} {name} ended with status {ended.returncode}: {ended.stderr.strip()}")
    return int(said[3]), said[4]


def main():
    ours, rust, file, rounds, *names = sys.argv[1:]
    size = pathlib.Path(file).stat().st_size
    print("bench | aqlx MB/s | Rust MB/s | aqlx/Rust")
    for name in names or NAMES:
        best, came = {}, {}
        for _ in range(3):
            for who, program in (("ours", ours), ("rust", rust)):
                micros, came[who] = run(program, name, file, rounds)
                best[who] = min(best.get(who, micros), max(micros, 1))
        note = "" if came["ours"] == came["rust"] else f" | came to {came['ours']} and {came['rust']}"
        print(f"{name} | {size / best['ours']:.3g} | {size / best['rust']:.3g} | {best['rust'] / best['ours']:.2f}{note}")


main()
