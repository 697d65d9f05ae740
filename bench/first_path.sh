#!/bin/sh
# Prints what one line costs from the start of the process to its end, with the ratio to the JDK's
# `jshell` where that is installed, and what a snippet costs as sessions grow. It tests nothing.
set -eu
cd "$(dirname "$0")/.."
program=$(bench/built.sh jsh)
exec python3 - "$program" <<'EOF'
import os, shutil, subprocess, sys, time

def measured(words, text):
    start = time.perf_counter()
    child = subprocess.Popen(words, stdin=subprocess.PIPE, stdout=subprocess.PIPE, stderr=subprocess.DEVNULL)
    child.communicate(text)
    return time.perf_counter() - start

def least(words, text, times):
    return min(measured(words, text) for _ in range(times))

# The peak of the memory in KiB, by GNU time, since a child of this script begins with the script's own.
def peak(words, text):
    clock = shutil.which("time")
    if not clock:
        return None
    words = [clock, "-f", "%M"] + words
    child = subprocess.run(words, input=text, stdout=subprocess.DEVNULL, stderr=subprocess.PIPE)
    return int(child.stderr.split()[-1])

program = os.path.abspath(sys.argv[1])
line = b"1 + 2\n"
own = least([program], line, 20)
own_peak = peak([program], line)
print(f"one line, jsh: {own * 1e3:.2f} ms, {own_peak} KiB")
jshell = shutil.which("jshell")
if jshell:
    for name, words in (("jshell", [jshell]), ("jshell -s -", [jshell, "-s", "-"])):
        other = least(words, line, 3)
        other_peak = peak(words, line)
        print(f"one line, {name}: {other * 1e3:.0f} ms, {other_peak} KiB; ratio of time {other / own:.0f}")
        if own_peak and other_peak:
            print(f"  ratio of memory {other_peak / own_peak:.0f}")
else:
    print("no jshell is installed, so there is no ratio")
before = None
for count in (1000, 2000, 4000, 8000, 16000):
    each = least([program], line * count, 5) / count
    ratio = "" if before is None else f"; ratio to half as many {each / before:.2f}"
    print(f"a session of {count} sums: {each * 1e6:.2f} us a snippet{ratio}")
    before = each
EOF
