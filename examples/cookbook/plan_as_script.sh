#!/bin/sh
# A plan as a script: the old policy's image as the boot section, and the plan as lane 1. It is then played without any
# traffic, so its report is the same at each run.
IOPMP=${IOPMP:-../../iopmp}
folder=$(mktemp -d) || exit 1
trap 'rm -rf "$folder"' EXIT
sed -n '/^== old$/,/^== new$/p' change_policy.update | sed '1d;$d' > "$folder/old.toml"
{
  "$IOPMP" compile < "$folder/old.toml" | sed '$d'
  "$IOPMP" plan < change_policy.update
} > "$folder/script"
"$IOPMP" run < "$folder/script"
