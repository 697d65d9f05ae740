#!/bin/sh
# Prints what it costs to lex a text of `+` and one string literal, of 64 KiB and of twice as much, so
# that one sees that the time grows with the length and no faster. It tests nothing.
set -eu
cd "$(dirname "$0")/.."
program=$(bench/built.sh jsh_lex_bench)
exec python3 - "$program" <<'EOS'
import subprocess, sys, time

def measured(rounds, text):
    start = time.perf_counter()
    subprocess.run([sys.argv[1], str(rounds)], input=text, stdout=subprocess.PIPE, check=True)
    return time.perf_counter() - start

# The least time of one round: a run without rounds has the cost of the process and of its input.
def least(text, rounds=200, times=5):
    many = min(measured(rounds, text) for _ in range(times))
    none = min(measured(0, text) for _ in range(times))
    return (many - none) / rounds

def outcome(text):
    return subprocess.run([sys.argv[1], "1"], input=text, stdout=subprocess.PIPE, check=True).stdout.decode().strip()

TEXTS = (("pluses", lambda size: b"+" * size), ("one string literal", lambda size: b'"' + b"a" * (size - 2) + b'"'))
print(f"{'text':<20}{'bytes':>8}{'outcome':>16}{'us':>10}{'ns a byte':>11}{'to half':>9}")
for name, made in TEXTS:
    before = None
    for size in (65536, 131072):
        text = made(size)
        each = least(text)
        ratio = "" if before is None else f"{each / before:.2f}"
        print(f"{name:<20}{size:>8}{outcome(text):>16}{each * 1e6:>10.0f}{each * 1e9 / size:>11.2f}{ratio:>9}")
        before = each
EOS
