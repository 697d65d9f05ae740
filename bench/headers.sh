#!/bin/sh
# Prints what it costs to say which classes are visible, of a chain of 8,000 classes that one name makes visible and of
# twice as many, and the same where the name is missing, so that one sees that the time grows with them and no faster. It
# tests nothing.
set -eu
cd "$(dirname "$0")/.."
program=$(bench/built.sh jsh_header_bench)
exec python3 - "$program" <<'EOS'
import subprocess, sys, time

def run(classes, ends):
    start = time.perf_counter()
    said = subprocess.run([sys.argv[1], str(classes), str(ends)], input=b"", stdout=subprocess.PIPE, check=True).stdout
    return time.perf_counter() - start, said.decode().strip()

# The least time. A run without classes has the cost of the process and of the library's table.
def least(classes, ends, times=5):
    return min(run(classes, ends)[0] for _ in range(times))

print(f"{'classes':>8}{'visible':>8}{'ms':>10}{'to half':>9}{'visible':>9}{'ms':>10}{'to half':>9}")
before = None
none = least(0, 0)
for classes in (8000, 16000):
    times = [least(classes, ends) - none for ends in (1, 0)]
    seen = [run(classes, ends)[1] for ends in (1, 0)]
    ratios = ("", "") if before is None else tuple(f"{now / half:.2f}" for now, half in zip(times, before))
    print(f"{classes:>8}{seen[0]:>8}{times[0] * 1e3:>10.1f}{ratios[0]:>9}{seen[1]:>9}{times[1] * 1e3:>10.1f}{ratios[1]:>9}")
    before = times
EOS
