#!/bin/sh
# Checks the pages of the repository and the man page: see tools/check_docs.py.
#
# usage: tools/check-docs.sh [--bin PROGRAM]
exec python3 "$(dirname "$0")/check_docs.py" "$@"
