#!/bin/sh
# Plays each input whose report under a seed stands here, and compares. NAME.SEED.report is that of the script NAME.script,
# here or in the folder above, or of the live update NAME.live; NAME.SEED.narrow is that of the same update by
# `narrow live`. A run whose lanes did not keep the seed's order is played again, up to five times, and then left out.
# The status is 0 where none differs.
folder=$(cd "$(dirname "$0")" && pwd) || exit 1
top=$(cd "$folder/../.." && pwd) || exit 1
got=$(mktemp -d) || exit 1
trap 'rm -rf "$got"' EXIT

# Whether a run of the command $3 with the seed $2 of the input $1 kept the order; its report is in $got/report.
played() {
  for try in 1 2 3 4 5; do
    # The command is one word or two.
    "$top/iopmp-mixed" "$2" $3 <"$1" >"$got/report" 2>"$got/turns"
    grep -q ' reproducible$' "$got/turns" && return 0
  done
  return 1
}

status=0 same=0 left=0
for report in "$folder"/*.report "$folder"/*.narrow; do
  file=$(basename "$report")
  name=${file%.*} command=run
  input=$folder/${name%.*}.script
  [ -f "$input" ] || input=$top/examples/${name%.*}.script
  [ -f "$input" ] || input=$folder/${name%.*}.live
  case $input in *.live) command=live ;; esac
  case $file in *.narrow) command="narrow live" ;; esac
  if ! played "$input" "${name##*.}" "$command"; then
    echo "$file: not reproducible here" >&2
    left=$((left + 1))
  elif cmp -s "$report" "$got/report"; then
    same=$((same + 1))
  else
    echo "$file: another report" >&2
    status=1
  fi
done
echo "seeds: $same as they stand, $left left out"
exit $status
