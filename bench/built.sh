#!/bin/sh
# Prints the path of the program of the crate that it is given, and builds it first where it isn't built.
set -eu
cd "$(dirname "$0")/.."
program=crates/$1/out/$1
if [ ! -x "$program" ]; then
    echo "$1 isn't built yet, and only a proved program is: proving it and the crates below it, which takes up to an hour on a machine that has proved none of them" >&2
    (cd "crates/$1" && rt run </dev/null >/dev/null)
fi
echo "$program"
