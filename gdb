#!/usr/bin/env bash
# Starts gdb over a machine, which is s360gdb:
#
#   ./gdb [WORD ..]               proves and builds it where it is not built or has changed
#   ./gdb --unproved [WORD ..]    proves nothing: it takes two minutes at first, and is there at once from then on
set -euo pipefail
top="$(cd "$(dirname "${BASH_SOURCE[0]}")" && pwd)"
source "$top/tools/program"

next="$top/tools/gdb/s360-gdb"
prepare s360gdb "$@"
S360GDB="$program" S360GDB_NOTICE="$notice" exec "$next" "${words[@]}"
