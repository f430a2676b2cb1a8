#!/bin/sh
# Plays a script, or the input of a live update, with each seed from FROM to TO. It prints how many different
# histories came, with the seed of the first of each, and how many different lists of verdicts, each with its first
# seed: the verdicts of every lane in its own order, and not where in the history they fell. Seeds whose run need
# not come again are named at the end.
# usage: examples/seeds.sh SCRIPT FROM TO
top=$(cd "$(dirname "$0")/.." && pwd) || exit 1
[ $# -eq 3 ] || { echo "usage: examples/seeds.sh SCRIPT FROM TO" >&2; exit 2; }
case $1 in *.live) word=live ;; *) word=run ;; esac
folder=$(mktemp -d) || exit 1
trap 'rm -rf "$folder"' EXIT

# The lines of the events in one line, and the verdicts of the lanes, in their order, in another.
told() {
  awk '
    /^[0-9]/ { history = history $0 ";" }
    /^[0-9].* = (allowed|denied|stalled)/ { split($0, part, " = "); of[$2] = of[$2] ", " part[2] }
    END {
      print history
      for (lane = 0; lane <= 16; lane++) if (lane in of) line = line "; lane " lane " " substr(of[lane], 3)
      print (line == "" ? "none" : substr(line, 3))
    }' "$1"
}

seed=$2
while [ "$seed" -le "$3" ]; do
  "$top/iopmp-mixed" "$seed" "$word" <"$1" >"$folder/report" 2>"$folder/turns" || { cat "$folder/report"; exit 1; }
  told "$folder/report" >"$folder/told"
  { echo "$seed"; cat "$folder/told"; grep -c reproducible "$folder/turns"; } >>"$folder/all"
  seed=$((seed + 1))
done

awk '
  NR % 4 == 1 { seed = $0; runs++ }
  NR % 4 == 2 { if (!($0 in histories)) { histories[$0]; history_count++; history_seeds = history_seeds " " seed } }
  NR % 4 == 3 { if (!($0 in verdicts)) { verdicts[$0]; lists[++verdict_count] = "seed " seed ": " $0 } times[$0]++; }
  NR % 4 == 0 { if ($0 != 1) strays = strays " " seed }
  END {
    print "histories " history_count " of " runs
    print "seeds" history_seeds
    print "lists of verdicts " verdict_count
    for (i = 1; i <= verdict_count; i++) print lists[i]
    if (strays != "") print "not reproducible" strays
  }' "$folder/all"
