#!/bin/sh
# Prints what it costs to make an environment and to ask it a name for each of its members, of 16,000 members and of
# twice as many, so that one sees that the time grows with them and no faster. It tests nothing.
set -eu
cd "$(dirname "$0")/.."
program=$(bench/built.sh jsh_scope_bench)
exec python3 - "$program" <<'EOS'
import subprocess, sys, time

def run(members, names):
    start = time.perf_counter()
    said = subprocess.run([sys.argv[1], str(members), str(names)], input=b"", stdout=subprocess.PIPE, check=True).stdout
    return time.perf_counter() - start, said.decode().strip()

# The least time. A run without members has the cost of the process and of the library's table.
def least(members, names, times=5):
    return min(run(members, names)[0] for _ in range(times))

print(f"{'members':>8}{'found':>8}{'made ms':>10}{'asked ms':>10}{'made to half':>14}{'asked to half':>15}")
before = None
none = least(0, 0)
for members in (16000, 32000):
    made = least(members, 0) - none
    asked = least(members, members) - none - made
    ratios = ("", "") if before is None else (f"{made / before[0]:.2f}", f"{asked / before[1]:.2f}")
    print(f"{members:>8}{run(members, members)[1]:>8}{made * 1e3:>10.1f}{asked * 1e3:>10.1f}{ratios[0]:>14}{ratios[1]:>15}")
    before = (made, asked)
EOS
