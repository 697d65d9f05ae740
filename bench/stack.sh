#!/bin/sh
# Prints of each form of snippet, nested as deep as the grammar takes it, whether the program reads it and ends well with
# a stack of 1 MiB. It tests nothing. A word names another program, with words of its own behind it.
set -eu
cd "$(dirname "$0")/.."
if [ $# = 0 ]; then
    set -- "$(bench/built.sh jsh)"
fi
exec python3 - "$@" <<'EOS'
import os, subprocess, sys

KIB = 1024
words = [os.path.abspath(sys.argv[1])] + sys.argv[2:]

# Whether it ends by itself: a stack that is used up ends it by a signal.
def ends(text):
    limited = ["sh", "-c", f'ulimit -s {KIB}; exec "$@"', "sh"] + words
    return subprocess.run(limited, input=text.encode() + b"\n", stdout=subprocess.DEVNULL).returncode == 0

def told(name, text):
    print(f"{name:<60}{'yes' if ends(text) else 'no'}")

# Operators of all ten levels, each of which waits for its right operand.
TEN = "a || b && c | d ^ e & f == g < h << i + j * "

# A front, a middle and an end: the front and the end stand as often as the number says.
FORMS = (
    ("parentheses", 256, "(", "1", ")"),
    ("calls", 256, "f(", "a", ")"),
    ("calls of members", 256, "a.f(", "a", ")"),
    ("calls through super", 256, "super.f(", "a", ")"),
    ("new objects", 256, "new A(", "a", ")"),
    ("index brackets", 256, "a[", "a", "]"),
    ("sizes of arrays", 256, "new int[", "a", "]"),
    ("casts", 256, "(int) ", "a", ""),
    ("unary minuses", 256, "- ", "1", ""),
    ("negations", 256, "!", "x", ""),
    ("assignments", 256, "a = ", "1", ""),
    ("first branches of ? :", 256, "a ? ", "b", " : c"),
    ("second branches of ? :", 256, "a ? b : ", "c", ""),
    ("array initializers", 256, "new int[] {", "", "}"),
    ("parentheses behind ten operators", 256, TEN + "(", "k", ")"),
    ("calls of members behind ten operators", 256, TEN + "a.f(", "k", ")"),
    ("new objects behind ten operators", 256, TEN + "new A(", "k", ")"),
    ("index brackets behind ten operators", 256, TEN + "a[", "k", "]"),
    ("sizes of arrays behind ten operators", 256, TEN + "new int[", "k", "]"),
    ("array initializers behind ten operators", 256, TEN + "new int[] {", "k", "}"),
    ("parentheses in front of ten operators", 256, "(", "a", " * b + c << d < e == f & g ^ h | i && j || k)"),
    ("blocks", 256, "{", "", "}"),
    ("if", 256, "if (a) ", ";", ""),
    ("else", 256, "if (a) ; else ", ";", ""),
    ("while", 256, "while (a) ", ";", ""),
    ("do", 256, "do ", ";", " while (a);"),
    ("for", 256, "for (;;) ", ";", ""),
    ("for over elements", 256, "for (int a : b) ", ";", ""),
    ("switch", 256, "switch (a) { case 1: ", "", "}"),
    ("try", 256, "try {", "", "} catch (A a) { }"),
    ("catch", 256, "try { } catch (A a) {", "", "}"),
    ("blocks of if", 128, "if (a) {", "", "}"),
    ("blocks of for", 128, "for (;;) {", "", "}"),
)

for name, depth, front, middle, end in FORMS:
    told(name, front * depth + middle + end * depth)
for name, depth, front, middle, end in FORMS:
    # A class, its method's body and an assignment are constructs too.
    depth -= 3
    inside = front * depth + middle + end * depth
    if inside[-1] not in ";}" or "new" in front:
        inside = f"x = {inside};"
    told("in a class: " + name, "class A { void f() {" + inside + "} }")
EOS
