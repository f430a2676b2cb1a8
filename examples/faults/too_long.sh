#!/bin/sh
# One byte more than the limit: the line comes whatever the bytes are.
IOPMP=${IOPMP:-../../iopmp}
head -c 4194305 /dev/zero | "$IOPMP" run
echo "status $?"
head -c 4194304 /dev/zero | "$IOPMP" run
echo "status $?"
