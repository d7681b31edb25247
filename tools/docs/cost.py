#!/usr/bin/env python3
"""cost.py LOG: what a run of the gate cost, by crate, as the tables of docs/LANDINGS.md up to request 8.

LOG is what `.ci/run` printed on the older toolchain, with the seconds of each proof and edit. Today's `rt ci` prints no times: of its log
this says so, and exits with 1.
"""
import re
import sys
from collections import defaultdict

proof, edits = {}, defaultdict(list)
for line in open(sys.argv[1], encoding="utf8"):
    if found := re.match(r"rt: (\w+) proved \((\d+) s\)", line):
        proof[found[1]] = int(found[2])
    elif found := re.match(r"rt: must-fail (\w+)/\w+: refused.*?(\d+) s\)$", line):
        edits[found[1]].append(int(found[2]))
if not proof:
    sys.exit(f"cost.py: {sys.argv[1]} has no seconds of proofs, as today's `rt ci` prints none: there is no table to make")
rows = sorted(((proof[crate] + sum(edits[crate]), crate) for crate in proof), reverse=True)
print("| crate | proof, s | edits | all edits, s | together, s |\n|---|---:|---:|---:|---:|")
for total, crate in rows:
    print(f"| {crate} | {proof[crate]} | {len(edits[crate])} | {sum(edits[crate])} | {total} |")
print(f"| all | {sum(proof.values())} | {sum(map(len, edits.values()))} | {sum(map(sum, edits.values()))} | {sum(total for total, _ in rows)} |")
