#!/usr/bin/env python3
"""plan.py STORE...: which STORE is to take in which parts/NAME.csv, a line a store, parted by tabs.

A part that one of the stores has stays there; each other goes to the store with the fewest then."""
import pathlib
import re
import sys


def plan(stores):
    have = {store: {path.stem for path in pathlib.Path(store).glob("*.seg")} for store in stores}
    todo = {path.stem for path in pathlib.Path("parts").glob("*.csv")}.difference(*have.values())
    shares = {store: [] for store in stores}
    for name in sorted(todo):
        if not re.fullmatch("[A-Za-z0-9_-]{1,64}", name):
            sys.exit("no name of a segment: " + name)
        store = min(stores, key=lambda store: len(have[store]) + len(shares[store]))
        shares[store].append(name)
    if any(len(have[store]) + len(share) > 512 for store, share in shares.items()):
        sys.exit("too many parts: a store has at most 512 segments; name more stores")
    return [[store, *share] for store, share in shares.items() if share]


if __name__ == "__main__":
    for line in plan(sys.argv[1:]):
        print(*line, sep="\t")
