# The share of time for which dosing was down, over the lines that tools/each gathers. Only runs that say `done` count: the others are told, and are in no sum.
import collections, sys
down_now, total, down, done, runs = {}, collections.Counter(), collections.Counter(), set(), set()
for run, first, *rest in (line.rstrip("\n").split("\t") for line in sys.stdin):
    runs.add(run)
    if first == "done":
        done.add(run)
    if first.isdigit():
        total[run] += int(rest[0])
        down[run] += int(rest[0]) if down_now.get(run) else 0
        parts = rest[2].split(",")
        down_now[run] = parts[0] != "0" and parts[2] != "2"
print(f"{len(done)} runs done, {len(runs - done)} not; down for {sum(down[r] for r in done)} of {sum(total[r] for r in done)} minutes")
