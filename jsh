#!/bin/sh
# Runs the program jsh on the standard streams, with the words that follow.
#
# Where the gate or `rt run` has built it and no source changed since, that program runs, which was
# proved before it was built. Otherwise `rt try` builds and runs the sources as they are, within a
# minute: nothing is proved then, and the program is built with checks and without optimisation.
set -eu
top=$(dirname "$(readlink -f "$0")")
built=$top/crates/jsh/out/jsh
if [ -x "$built" ] && [ -z "$(find "$top/crates" -path '*/out' -prune -o \( -name '*.rt' -o -name '*.antt' \) -newer "$built" -print -quit)" ]; then
    exec "$built" "$@"
fi
cd "$top/crates/jsh"
said=$(mktemp)
trap 'rm -f "$said"' EXIT
status=0
rt try -- "$@" 2>"$said" || status=$?
grep -v '^checked: \|^run=' "$said" >&2 || true
exit "$status"
