#!/bin/sh
# Refuses each allocation of the program in turn, in runs of four inputs: an access at the end of a range, a full stall
# queue, an image and a plan. Each run must end with status 6 and nothing written, or with status 0 and the whole
# output. It prints a line for each run that doesn't, and at the end one that counts.
#
# The program is the proved one: $IOPMP, or else what ./iopmp builds. fail-alloc.c, which `cc` compiles, stands before
# the C library in it, and refuses the one call for memory that is to fail. An input's numbers begin at 1 and end where
# a run makes fewer calls. Where there is no `cc`, a line says that nothing was tried.
#   fail-alloc.sh            all numbers, in a second or two
#   fail-alloc.sh --kit N    the Nth alone, in the kit's own build, unproved, which takes most of a minute
top=$(cd "$(dirname "$0")/.." && pwd) || exit 2
folder=$(mktemp -d) || exit 2
trap 'rm -rf "$folder"' EXIT
cases=$folder/cases
mkdir "$cases"

# add NAME WORD: a case whose input and output lie beside it already
add() {
  echo "$2" >"$cases/$1.args"
}

cp "$top/crates/iopmp/stdin" "$cases/access"
cp "$top/crates/iopmp/stdout" "$cases/access.stdout"
add access run
cat >"$cases/queue" <<'END'
iopmp 1
unit rrids 4 domains 3 entries 8 mdcfg 0 k 0 srcmd 0 sps 0 queue 1 transl -
boot
w 0 0x800 0x8
w 0 0x1060 0x2
w 0 0x8 0x1
w 0 0x30 0x1
t 0 3 r 0x0 4 as a
t 0 3 r 0x0 4 as b
j a
j b
w 0 0x30 0x0
j a
end
END
cat >"$cases/queue.stdout" <<'END'
events 9
0 0 w 0 0x800 0x8 = 0x8
1 0 w 0 0x1060 0x2 = 0x2
2 0 w 0 0x8 0x1 = 0x2007
3 0 w 0 0x30 0x1 = 0x0
4 0 t 0 3 r 0x0 4 = queued
5 0 t 0 3 r 0x0 4 = busy
6 0 j 0 4 = held
7 0 w 0 0x30 0x0 = 0x0
8 0 j 0 4 = denied 5 - err noirq
section 0 done
unit 0 0x53 0x0 0x0 0xffff0003
end
END
add queue run
cat >"$cases/image" <<'END'
[unit]
rrids = 2
domains = 4
entries = 5
queue = 2
[[domain]]
name = "a"
rrids = [0]
guard = [{from = 0x1000, size = 0x3000, rights = "r"}]
grant = [{from = 0, size = 0x8000, rights = "rw"}]
[[domain]]
name = "b"
rrids = [1]
guard = [{from = 0, size = 4, rights = ""}]
grant = [{from = 0x8000, size = 0x1000, rights = "rwx"}]
END
cat >"$cases/image.stdout" <<'END'
iopmp 1
unit rrids 2 domains 4 entries 5 mdcfg 0 k 0 srcmd 0 sps 0 queue 2 transl -
boot
w 0 0x10 0x3
w 0 0x800 0x2
w 0 0x804 0x3
w 0 0x808 0x4
w 0 0x80c 0x5
w 0 0x1000 0xa
w 0 0x1020 0x14
w 0 0x2000 0x400
w 0 0x2004 0x0
w 0 0x2008 0x0
w 0 0x2010 0x1000
w 0 0x2014 0x0
w 0 0x2018 0x9
w 0 0x2020 0x0
w 0 0x2024 0x0
w 0 0x2028 0x10
w 0 0x2030 0xfff
w 0 0x2034 0x0
w 0 0x2038 0x1b
w 0 0x2040 0x21ff
w 0 0x2044 0x0
w 0 0x2048 0x1f
w 0 0x8 0x1
end
END
add image compile
# update RIGHTS: a policy of one grant
update() {
  cat <<END
[unit]
rrids = 1
domains = 1
entries = 1
queue = 1
[[domain]]
name = "a"
rrids = [0]
grant = [{from = 0x80000000, size = 0x1000, rights = "$1"}]
END
}
{
  echo "== old"
  update r
  echo "== new"
  update rw
  echo "== polls 8"
} >"$cases/plan"
cat >"$cases/plan.stdout" <<'END'
lane 1
w 0 0x30 0x1
until 0 0x30 0x1 0x0 max 8
w 0 0x10 0x0
w 0 0x800 0x1
w 0 0x1000 0x2
w 0 0x2000 0x200001ff
w 0 0x2004 0x0
w 0 0x2008 0x1b
w 0 0x30 0x0
end
END
add plan plan

# The last line, which says what was tried, and whether nothing was bad.
tell() {
  echo "fail-alloc: $1: $refused runs refused with status 6 and nothing written, $whole whole, bad=$bad"
  [ "$bad" -eq 0 ]
}

# The Nth allocation alone, in the kit's own build. A refused run differs from its output, and has written nothing.
try_kit() {
  cd "$top/crates/iopmp" || exit 2
  rt try --fail-alloc "$1" --cases "$cases" >"$folder/out" 2>&1
  refused=$(grep -c ' run=ended status=6 .* output=differs' "$folder/out")
  silent=$(grep -c '^the output differs .* found ""$' "$folder/out")
  whole=$(grep -c ' run=ended status=0 .* output=expected' "$folder/out")
  bad=$((4 - refused - whole))
  [ "$refused" -eq "$silent" ] || bad=4
  [ "$bad" -eq 0 ] || cat "$folder/out"
  tell "the kit's build, number $1"
}

# Refuses an allocation of a case, and counts what comes of it. Whether the run made so many.
try() {
  timeout 60 env LD_PRELOAD="$folder/fail-alloc.so" FAIL_ALLOC="$2" "$program" "$(cat "$cases/$1.args")" \
    <"$cases/$1" >"$folder/written" 2>"$folder/told"
  status=$?
  told=
  read -r told <"$folder/told"
  if [ "$status" -eq 0 ] && cmp -s "$folder/written" "$cases/$1.stdout"; then
    [ "$told" != refused ] || whole=$((whole + 1))
  elif [ "$status" -eq 6 ] && [ "$told" = refused ] && [ ! -s "$folder/written" ]; then
    refused=$((refused + 1))
  else
    echo "fail-alloc: BAD: $1, number $2: status $status, $(wc -c <"$folder/written") bytes written"
    cat "$folder/told"
    bad=$((bad + 1))
  fi
  [ "$told" = refused ]
}

if [ "${1:-}" = --kit ]; then
  try_kit "${2:?the number}"
  exit
fi
if ! command -v cc >/dev/null; then
  echo "fail-alloc: SKIPPED: there is no cc on the path, so no allocation was refused"
  exit 0
fi
cc -O2 -Wall -shared -fPIC -o "$folder/fail-alloc.so" "$top/examples/fail-alloc.c" || exit 2
# ./iopmp builds its program where that is due.
[ -n "${IOPMP:-}" ] || "$top/iopmp" run <"$cases/access" >"$folder/written" || exit 2
program=$(readlink -f "${IOPMP:-$top/out/iopmp}")
if [ "$(head -c 2 "$program")" = '#!' ]; then
  echo "fail-alloc: $program is a script, whose shell would be refused memory: IOPMP is to be the program itself"
  exit 2
fi
most=0 refused=0 whole=0 bad=0
for name in access queue image plan; do
  number=1
  while try "$name" "$number"; do number=$((number + 1)); done
  if [ "$number" -eq 1 ]; then
    echo "fail-alloc: BAD: $name: no allocation was refused"
    bad=$((bad + 1))
  fi
  [ "$number" -le "$most" ] || most=$((number - 1))
done
tell "numbers 1 to $most"
