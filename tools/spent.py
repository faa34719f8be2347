#!/usr/bin/env python3
"""Tells where the time of a crate's check went, by the clock: also of one that was stopped, or that goes on.

    tools/spent.py CRATE [COUNT]

CRATE is a crate's folder. A check keeps each module that it has checked as a file in the crate's out/incremental, so the
time between two files went into the second one. The modules of a function have its name in front: `Statement` and `Lts`
are what it is to do and how it goes, `Tie` and `Proof` that it does so, `Goals` what search and answers prove. The sums
are printed, the largest first, each with how large the files are in MB: that hangs on no other work of the machine, and a MB
takes about 0.6 seconds of a processor. Gaps of more than two minutes are left out, since another check began behind them.
"""
import collections
import re
import sys
from pathlib import Path
from typing import DefaultDict

GAP = 120
PARTS = re.compile(r"\.(?:Statement|Lts|Tie|Proof|Named|Layout|Met|Goals|Given|View|Code|Answers|Invariants|Goal|Carried|[+]).*")


def main() -> None:
    files = sorted((it.stat().st_mtime, it.stem, it.stat().st_size) for it in Path(sys.argv[1]).glob("out/incremental/*/*.oantt"))
    spent: DefaultDict[str, float] = collections.defaultdict(float)
    sizes: DefaultDict[str, float] = collections.defaultdict(float)
    count = int(sys.argv[2]) if len(sys.argv) > 2 else 40
    for (before, _, _), (after, module, size) in zip(files, files[1:]):
        name = PARTS.sub("", module.partition(".")[2])
        sizes[name] += size / 1e6
        if after - before < GAP:
            spent[name] += after - before
    print(f"{sum(spent.values()):8.1f} seconds {sum(sizes.values()):7.1f} MB, {len(files)} modules")
    for name, seconds in sorted(spent.items(), key=lambda it: it[1], reverse=True)[:count]:
        print(f"{seconds:8.1f} {sizes[name]:6.1f} {name}")


if __name__ == "__main__":
    main()
