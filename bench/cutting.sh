#!/bin/sh
# Prints what it costs to cut an input into commands, with twice as many lines or snippets each time, so that one sees
# that the time grows with the input and no faster: snippets over many lines, comments, blank lines behind a text that
# is held, and many snippets on one line. It tests nothing.
set -eu
cd "$(dirname "$0")/.."
program=$(bench/built.sh jsh)
exec python3 - "$program" <<'EOS'
import os, subprocess, sys, time

program = os.path.abspath(sys.argv[1])

def measured(text):
    start = time.perf_counter()
    told = subprocess.run([program], input=text, stdout=subprocess.PIPE).stdout
    return time.perf_counter() - start, told

def least(text, times=5):
    return min(measured(text) for _ in range(times))

INPUTS = (
    ("a block over lines", 2000, lambda n: b"{\n" + b"if (a) b(c);\n" * n + b"}\n"),
    ("a sum over lines", 8000, lambda n: b"1 +\n" * n + b"1\n"),
    ("a comment over lines", 8000, lambda n: b"1 + /*\n" + b"* c\n" * n + b"*/ 2\n"),
    ("blank lines behind a text", 30000, lambda n: b"1 +\n" + b"\n" * n + b"2\n"),
    ("blank lines in a comment", 30000, lambda n: b"1 + /*\n" + b"\n" * n + b"*/ 2\n"),
    ("comments behind a text", 6000, lambda n: b"1 +\n" + b"// c\n" * n + b"2\n"),
    ("sums on one line", 4000, lambda n: b"1;" * n + b"\n"),
    ("words on one line", 6000, lambda n: b"else " * n + b"\n"),
)
none = least(b"")[0]
print(f"{'input':<28}{'count':>8}{'bytes':>9}{'ms':>9}{'ns a byte':>11}{'to half':>9}  last line")
for name, count, made in INPUTS:
    before = None
    for times in (count, 2 * count):
        text = made(times)
        taken, told = least(text)
        taken -= none
        ratio = "" if before is None else f"{taken / before:.2f}"
        last = told.decode(errors="replace").strip().split("\n")[-1][:40]
        print(f"{name:<28}{times:>8}{len(text):>9}{taken * 1e3:>9.2f}{taken * 1e9 / len(text):>11.1f}{ratio:>9}  {last}")
        before = taken
EOS
