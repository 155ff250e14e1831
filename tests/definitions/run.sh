#!/bin/sh
# run.sh SEED ROUNDS SHARE: made round files, a share of them damaged: the definitions of crate rules, computed by the checker,
# against reading.py, each by refl. Works in a folder outside the checkout, since rt ci refuses definitions that stand in no crate, and removes it in the end.
# The last line is the check's verdict on the rows.
set -e
root=$(cd "$(dirname "$0")/../.." && pwd)
d=$(mktemp -d)
trap 'rm -rf "$d"' EXIT
mkdir -p "$d/crates/rows/specs" "$d/crates/rows/src" "$d/crates/rules"
cp -r "$root/crates/rules/src" "$root/crates/rules/specs" "$d/crates/rules"
printf '// Made round files.\n#![tactic(auto)]\n' > "$d/crates/rows/src/lib.rt"
echo 'pub mod Rows' > "$d/crates/rows/specs/Lib.antt"
printf 'rules:\nrows: rules\n' > "$d/crates.txt"
PYTHONDONTWRITEBYTECODE=1 python3 "$root/tests/definitions/rows.py" "$@" > "$d/crates/rows/specs/Rows.antt"
cd "$d/crates/rows"
rt check > "$d/check.log" 2>&1 || { grep -m 5 'error' "$d/check.log" | cut -c1-300; exit 1; }
grep '^logic=proved' "$d/check.log" | tail -n 1
