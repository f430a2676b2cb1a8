#!/bin/sh
# A folder in place of a file can't be read: status 4, and nothing is written.
IOPMP=${IOPMP:-../../iopmp}
"$IOPMP" run < .
echo "status $?"
