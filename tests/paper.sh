#!/usr/bin/env bash
# Holds docs/SHEET.md to the definitions, the header, the tools and the stored answers (tests/paper.py). It needs Python 3.11 and nothing else; station_page
# and read_bdf are asked too where they are built.
#
#   tests/paper.sh [references]
#
# Each test prints 'ok NAME' or 'FAILED NAME'; the last line is 'N passed, M failed', and the exit status is 1 if one failed.
set -uo pipefail
cd "$(dirname "$0")/.."
exec python3 tests/paper.py "$@"
