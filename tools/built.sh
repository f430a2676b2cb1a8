#!/bin/sh
# Runs a program of this repository, which it first builds where that is due: CRATE, the words of a run that tries the
# built program, `--`, and the words of the run that was asked for. `iopmp` beside this folder says how it is called.
#
# The program is due to be built where it is missing, or where a source of its crate or of a crate below is newer. Each
# crate is proved on the way, lowest first; standard error tells which one, of how many, and the time so far. The
# program stands in out/CRATE, whole at every moment, and what the builder says in out/CRATE.log. Standard input and
# standard output are the program's alone. The status is the program's, or 1 where there is none to run.
set -u
top=$(dirname "$(dirname "$(readlink -f "$0")")")
crate=$1
shift
out=$top/out
program=$out/$crate
made=$top/crates/$crate/out/$crate
log=$out/$crate.log

say() {
  printf '%s: %s\n' "$crate" "$1" >&2
}

# The crates of the repository that the program stands on, lowest first, and itself at the end.
crates() {
  awk -v want="$crate" '
    /^[a-z]/ { name = $1; sub(/:.*/, "", name); line = $0; sub(/^[^:]*:/, "", line); below[name] = line }
    function visit(name, parts, n, i) {
      if (!(name in below) || name in seen) return
      seen[name] = 1
      n = split(below[name], parts, " ")
      for (i = 1; i <= n; i++) visit(parts[i])
      print name
    }
    END { visit(want) }
  ' "$top/crates.txt"
}

# Whether the file $1 is a program that no source is newer than.
is_current() {
  [ -x "$1" ] || return 1
  set -- "$1" "$top/crates.txt" "$top/HANDLES"
  for name in $names; do
    for part in src specs proofs; do
      [ -d "$top/crates/$name/$part" ] && set -- "$@" "$top/crates/$name/$part"
    done
  done
  built=$1
  shift
  [ -z "$(find "$@" -newer "$built" -print 2>/dev/null | head -n 1)" ]
}

# The time since the build began.
so_far() {
  spent=$(($(date +%s) - began))
  if [ "$spent" -lt 60 ]; then echo "$spent s"; else echo "$((spent / 60)) min $((spent % 60)) s"; fi
}

# Tells what is being done until it is killed: one line that is written again and again on a terminal.
tell() {
  if [ ! -t 2 ]; then
    say "$1, $(so_far) so far"
    return
  fi
  while kill -0 $$ 2>/dev/null; do
    printf '\r%s: %s, %s so far\033[K' "$crate" "$1" "$(so_far)" >&2
    sleep 1
  done
}

# Runs the builder's words in the folder of the crate $1, with the line $2 and what is printed in the file $3.
step() {
  folder=$top/crates/$1 line=$2 printed=$3
  shift 3
  tell "$line" 9>&- &
  teller=$!
  echo "== $line" >>"$log"
  (cd "$folder" && exec rt "$@") 9>&- </dev/null >>"$printed" 2>>"$log"
  status=$?
  if [ -t 2 ]; then kill "$teller" 2>/dev/null; fi
  wait "$teller" 2>/dev/null
  return $status
}

# Proves each crate, lowest first, and tries the program. The words are those of the try.
build() {
  began=$(date +%s) at=0
  : >"$out/$crate.begun"
  : >"$log"
  for name in $names; do
    at=$((at + 1))
    line="proving crate $at of $(echo "$names" | wc -l), $name"
    if [ "$name" = "$crate" ]; then
      step "$name" "$line" /dev/null run -- "$@" || return 1
    else
      step "$name" "$line" "$log" lib || return 1
    fi
  done
  if [ -t 2 ]; then printf '\r\033[K' >&2; fi
  say "built in $(so_far)"
}

# Puts what was made where it is run, with the same time and in one step.
take() {
  cp -p "$made" "$program.new" && mv "$program.new" "$program"
}

fail() {
  if [ -t 2 ]; then echo >&2; fi
  say "the program couldn't be built; the last lines of $log:"
  grep -v '^statements .*: modules loaded=\|^fn .*: proved$' "$log" | tail -n 20 >&2
  exit 1
}

# What is done while no other call of this clone builds the same.
build_in_turn() {
  mkdir -p "$out" || exit 1
  exec 9>"$out/build.lock"
  if ! flock -n 9; then
    say "another call is building; waiting for it"
    flock 9
  fi
  is_current "$program" && return
  if is_current "$made"; then
    take
    return
  fi
  command -v rt >/dev/null || { say "there is no rt on the path, which builds the program: see README.md"; exit 1; }
  say "proving and building the program, once; the log is $log"
  build "$@" || fail
  # A source that changed meanwhile is newer than the program.
  touch -r "$out/$crate.begun" "$made" && take || fail
}

names=$(crates)
[ -n "$names" ] || { say "crates.txt names no such crate"; exit 1; }
if ! is_current "$program"; then
  set -f
  tries=
  for word in "$@"; do
    [ "$word" = -- ] && break
    tries="$tries $word"
  done
  build_in_turn $tries
  exec 9>&-
fi
while [ "$1" != -- ]; do shift; done
shift
exec "$program" "$@"
