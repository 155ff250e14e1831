#!/bin/sh
# run.sh [ROUNDS] [DAMAGED] [SEED]: the judge is held to the paper's worked cases, then the library to the judge, byte for byte, on made rounds
# and damaged ones, in two halves side by side, of this seed and the next. Each prints how often each refusal, outcome, reason and tie occurred; one that
# never did is a failure (below some 40,000 rounds in a half the rarest may be missing). The last line is 'N passed, 0 failed'.
set -eu
cd "$(dirname "$0")/../.."
. tests/x86-64.sh
out=target/judge
mkdir -p $out
library
for file in judge make selftest; do
    compile $out/$file.o tests/judge/$file.c
done
for file in judge occurrences compare; do
    compile $out/counting-$file.o tests/judge/$file.c -DJUDGE_COUNT
done
link $out/selftest $out/selftest.o $out/judge.o $out/make.o
link $out/compare $out/counting-compare.o $out/counting-occurrences.o $out/counting-judge.o $out/make.o $archive
$out/selftest

# half K: of this many rounds and damaged ones
rounds=$((${1:-100000} / 2)) damaged=$((${2:-100000} / 2)) seed=${3:-1}
half() {
    $out/compare $rounds $damaged $((seed + $1)) >$out/half-"$1"
}
half 1 &
first=$!
failed=0
half 0 || failed=1
wait $first || failed=1
cat $out/half-0 $out/half-1
[ $failed = 0 ]
{ tail -n 1 $out/half-0; tail -n 1 $out/half-1; } | awk '{ passed += $1; failed += $3 } END { print passed " passed, " failed " failed"; exit failed > 0 }'
