#!/bin/bash
# Shows, for each crate that is named or for all, the processor time of its check from nothing and its three dearest
# functions. The crates below are taken as they are kept. The crate is checked in a copy of the repository under another
# name, of which nothing is kept, by one job.
#
#     bench/gate.sh [NAME..]
set -e
top=$(cd "$(dirname "$0")/.." && pwd)
exec python3 "$top/bench/gate.py" "$top" "$@"
