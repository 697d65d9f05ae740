#!/bin/sh
# Prints what it costs to tell whether a text is whole, for texts of 64 KiB and of twice as much, so that one sees that
# the time grows with the length and no faster. The analysis is told apart from the lexis before it. It tests nothing.
set -eu
cd "$(dirname "$0")/.."
program=$(bench/built.sh jsh_complete_bench)
exec python3 - "$program" <<'EOS'
import subprocess, sys, time

def measured(rounds, each, text):
    start = time.perf_counter()
    subprocess.run([sys.argv[1], str(rounds), str(each)], input=text, stdout=subprocess.PIPE, check=True)
    return time.perf_counter() - start

# The least time of one lexis, and of one analysis. A run without rounds has the cost of the process and of its input.
def least(text, rounds=10, times=5):
    none = min(measured(0, 0, text) for _ in range(times))
    lexis = (min(measured(rounds, 0, text) for _ in range(times)) - none) / rounds
    both = (min(measured(rounds, 10, text) for _ in range(times)) - none) / rounds
    return lexis, (both - lexis) / 10

def outcome(text):
    return subprocess.run([sys.argv[1], "1", "1"], input=text, stdout=subprocess.PIPE, check=True).stdout.decode().strip()

def repeated(head, part, tail):
    return lambda size: head + part * ((size - len(head) - len(tail)) // len(part)) + tail

TEXTS = (
    ("statements in a block", repeated(b"{", b"if(a)b(c);else d=e[f];", b"}")),
    ("statements, cut", repeated(b"{", b"if(a)b(c);else d=e[f];", b"")),
    ("statements in a row", repeated(b"", b"if(a)b(c);else d=e[f];", b"")),
    ("a sum, cut", repeated(b"1", b"+1", b"+")),
    ("parentheses, too deep", repeated(b"", b"(", b"")),
    ("nested ifs and a block", repeated(b"if(a)" * 250 + b"{", b"b(c);", b"}")),
)
print(f"{'text':<24}{'bytes':>8}{'lexis us':>10}{'analysis us':>13}{'ns a byte':>11}{'to half':>9}  outcome")
for name, made in TEXTS:
    before = None
    for size in (65536, 131072):
        text = made(size)
        lexis, each = least(text)
        ratio = "" if before is None else f"{each / before:.2f}"
        print(f"{name:<24}{len(text):>8}{lexis * 1e6:>10.0f}{each * 1e6:>13.1f}{each * 1e9 / len(text):>11.3f}{ratio:>9}  {outcome(text)}")
        before = each
EOS
