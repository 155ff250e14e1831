#!/bin/sh
# run.sh [FILES]: the program pencil is held, byte for byte, to what tests/pencil/expected.c works out from document 01, on FILES made rounds of
# 2,048 products each. Prints how often each kind of working occurred; one that never did is a failure (with few files the rarest may be
# missing). The last line is 'N passed, 0 failed', N counting files, kinds and the check that a single changed digit is found.
set -eu
cd "$(dirname "$0")/../.."
. tests/x86-64.sh
files=${1:-49}
out=target/pencil
passed=0
mkdir -p $out

# fail WORDS...
fail() {
    echo "$*"
    echo "$passed passed, 1 failed"
    exit 1
}

# The command proves and builds the program where it is not there or a source is newer.
./gustmirror value examples/valuation.round >$out/valuation.txt
compile $out/expected.o tests/pencil/expected.c
link $out/expected $out/expected.o

seed=0
while [ $seed -lt "$files" ]; do
    seed=$((seed + 1))
    $out/expected $seed ROUND >$out/round
    $out/expected $seed TEXT >$out/expected.txt
    target/bin/pencil <$out/round >$out/printed.txt || fail "seed $seed: pencil stopped with status $? on $out/round"
    cmp $out/expected.txt $out/printed.txt || fail "seed $seed: $out/printed.txt is not what is expected of $out/round"
    passed=$((passed + 1))
done

# The comparison can fail: the last digit of the last text is made another, and no other byte.
sed -e '$s/9$/0/' -e t -e '$s/[0-8]$/9/' $out/expected.txt >$out/changed.txt
if cmp -s $out/changed.txt $out/printed.txt; then
    fail "seed $seed: a changed digit was not found"
fi
[ "$(cmp -l $out/changed.txt $out/printed.txt | wc -l)" -eq 1 ] || fail "seed $seed: more than one digit was changed"
passed=$((passed + 1))

$out/expected "$files" KINDS >$out/kinds.txt || { cat $out/kinds.txt; fail "a kind never occurred in the seeds 1 to $files"; }
cat $out/kinds.txt
passed=$((passed + $(wc -l <$out/kinds.txt)))
echo "$passed passed, 0 failed"
