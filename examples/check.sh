#!/bin/sh
# Checks every example, recipe, fault and quote: the head of check.py says by which rules. The program is $IOPMP, or
# ./iopmp where that isn't set. Without words it then refuses each allocation in turn, by fail-alloc.sh, and checks the
# reports of named seeds, where the program that mixes lanes is built.
here=$(dirname "$(readlink -f "$0")")
python3 "$here/check.py" "$@" || exit $?
[ $# -eq 0 ] || exit 0
"$here/fail-alloc.sh" || exit $?
[ -x "$here/../crates/iopmp_mixed/out/iopmp_mixed" ] || exit 0
exec "$here/seeds/check.sh"
