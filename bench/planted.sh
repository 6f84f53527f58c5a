#!/usr/bin/env bash
# Tries planted bugs over a copy of the repository: see planted.py.
exec python3 "$(dirname "$0")/planted.py" "$@"
