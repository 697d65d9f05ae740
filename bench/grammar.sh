#!/bin/sh
# Prints what it costs to lex and parse flat and nested texts, whole ones and refused ones, of 64 KiB and of twice as
# much, so that one sees that the time grows with the length and no faster. It tests nothing.
set -eu
cd "$(dirname "$0")/.."
program=$(bench/built.sh jsh_parse_bench)
exec python3 - "$program" <<'EOS'
import subprocess, sys, time

def measured(rounds, text):
    start = time.perf_counter()
    subprocess.run([sys.argv[1], str(rounds)], input=text, stdout=subprocess.PIPE, check=True)
    return time.perf_counter() - start

# The least time of one round: a run without rounds has the cost of the process and of its input.
def least(text, rounds=20, times=5):
    many = min(measured(rounds, text) for _ in range(times))
    none = min(measured(0, text) for _ in range(times))
    return (many - none) / rounds

def outcome(text):
    return subprocess.run([sys.argv[1], "1"], input=text, stdout=subprocess.PIPE, check=True).stdout.decode().strip()

def repeated(head, part, tail):
    return lambda size: head + part * ((size - len(head) - len(tail)) // len(part)) + tail

deep = b"(" * 250 + b"a" + b")" * 250
TEXTS = (
    ("a sum", repeated(b"1", b"+1", b"")),
    ("statements", repeated(b"{", b"if(a)b(c);else d=e[f];", b"}")),
    ("members", repeated(b"class A{", b"int f(int x){return x;}", b"}")),
    ("deep sums", repeated(b"a", b"+" + deep, b"")),
    ("a sum, refused", repeated(b"1", b"+1", b"+)")),
    ("statements, refused", repeated(b"{", b"if(a)b(c);else d=e[f];", b"}}")),
)
print(f"{'text':<22}{'bytes':>8}{'us':>10}{'ns a byte':>11}{'to half':>9}  outcome")
for name, made in TEXTS:
    before = None
    for size in (65536, 131072):
        text = made(size)
        each = least(text)
        ratio = "" if before is None else f"{each / before:.2f}"
        print(f"{name:<22}{len(text):>8}{each * 1e6:>10.0f}{each * 1e9 / len(text):>11.2f}{ratio:>9}  {outcome(text)}")
        before = each
EOS
