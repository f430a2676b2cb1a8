#!/bin/sh
# Runs scripts side by side, as many at once as the machine has processors, and says which reports are the saved ones.
# A run is a process of its own: it reads its script and writes its report, and shares nothing with another run.
IOPMP=${IOPMP:-../../iopmp}
folder=$(mktemp -d) || exit 1
trap 'rm -rf "$folder"' EXIT
export IOPMP folder
names="chosen_order drain_domain drain_requester enable_order error_registers priority"
printf '%s\n' $names |
  xargs -P "$(getconf _NPROCESSORS_ONLN)" -I NAME sh -c \
    '"$IOPMP" run < NAME.script > "$folder/NAME"; echo "status $?" >> "$folder/NAME"'
for name in $names; do
  { cat "$name.report"; echo "status 0"; } | cmp - "$folder/$name" && echo "$name: as saved"
done
