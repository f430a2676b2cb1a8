#!/bin/sh
# A script of 16 lanes that may make 1044480 events, and no memory for a copy of the units and its words for each of the 17
# sections: status 6, and nothing is written. A program that was built without proofs bears a sanitizer, which needs more
# address space than the limit and has a limit of its own.
IOPMP=${IOPMP:-../../iopmp}
folder=$(mktemp -d) || exit 1
trap 'rm -rf "$folder"' EXIT
{
  echo "iopmp 1"
  echo "unit rrids 4 domains 3 entries 8 mdcfg 0 k 0 srcmd 0 sps 0 queue 1 transl -"
  echo "boot"
  echo "lane 1"
  yes "until 0 0x8 0x1 0x0 max 4096" | head -n 15
  seq -f "lane %g" 2 16
  echo "end"
} > "$folder/script"
(
  if (ulimit -v 60000; "$IOPMP" run < ../first_access.script > "$folder/report"; exit $?) 2> "$folder/errors"; then
    ulimit -v 60000
  else
    export ASAN_OPTIONS=allocator_may_return_null=1:max_allocation_size_mb=4
  fi
  "$IOPMP" run < "$folder/script" 2> "$folder/errors"
  echo "status $?"
)
