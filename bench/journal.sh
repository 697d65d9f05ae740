#!/bin/sh
# Prints how fast a journal of 50,000 entries is written and read, in MB a second. It tests nothing.
set -eu
cd "$(dirname "$0")/.."
program=$(bench/built.sh jsh_replay_bench)
exec python3 - "$program" <<'EOS'
import re, subprocess, sys, time

def measured(words):
    start = time.perf_counter()
    subprocess.run([sys.argv[1]] + words, stdin=subprocess.DEVNULL, stdout=subprocess.PIPE, check=True)
    return time.perf_counter() - start

# The least time of one round: a run without rounds has the cost of the process and of the journal.
def least(what, rounds=50, times=5):
    many = min(measured(what + [str(rounds)]) for _ in range(times))
    none = min(measured(what + ["0"]) for _ in range(times))
    return (many - none) / rounds

def outcome(words):
    return subprocess.run([sys.argv[1]] + words, stdin=subprocess.DEVNULL, stdout=subprocess.PIPE, check=True).stdout.decode().strip()

size = int(re.search(r"\d+", outcome(["write", "1"])).group())
print(f"{'what':<8}{'bytes':>9}{'ms':>8}{'MB a second':>13}  outcome")
for name, what in (("writing", ["write"]), ("reading", [])):
    each = least(what)
    print(f"{name:<8}{size:>9}{each * 1e3:>8.2f}{size / each / 1e6:>13.0f}  {outcome(what + ['1'])}")
EOS
