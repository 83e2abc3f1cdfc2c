# Sourced by the other scripts: finds the program, builds it where it is not there, and makes a folder to work in.
set -e
top=$(cd "$(dirname "$0")/.." && pwd)
program="$top/crates/hawq/out/hawq"
[ -x "$program" ] || (cd "$top/crates/hawq" && rt run >/dev/null)
work=$(mktemp -d)
trap 'rm -rf "$work"' EXIT
