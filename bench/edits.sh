#!/usr/bin/env bash
# Tries the edits beside the gate; `bench/edits.py --help` says how.
exec python3 "$(dirname "$0")/edits.py" "$@"
