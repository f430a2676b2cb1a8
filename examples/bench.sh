#!/bin/sh
# Measures the program on large inputs, and on those that are made to be costly. Nothing here is a test.
exec python3 "$(dirname "$(readlink -f "$0")")/bench.py" "$@"
