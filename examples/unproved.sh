#!/bin/sh
# Runs the program with these words before any proof, which takes about a minute and not the time of the proofs. Standard
# input, standard output and the status are the program's; standard error says that nothing was proved. What is built is
# not kept, so each call takes its minute: `rt try --cases FOLDER -- run` in crates/iopmp runs a folder of inputs at once.
top=$(dirname "$(dirname "$(readlink -f "$0")")")
command -v rt >/dev/null || { echo "unproved: there is no rt on the path: see README.md" >&2; exit 1; }
echo "unproved: no proof is made or asked for; building takes about a minute" >&2
cd "$top/crates/iopmp" || exit 1
exec rt try -- "$@"
