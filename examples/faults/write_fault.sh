#!/bin/sh
# A full disk takes nothing: status 5.
IOPMP=${IOPMP:-../../iopmp}
"$IOPMP" run < ../first_access.script > /dev/full
echo "status $?"
