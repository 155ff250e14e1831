#!/bin/sh
# Prints, in one run, the time that a round takes in the library beside the judge of tests/judge, which is plain C compiled at -O2 for the same
# processor. Ties of 20 take the judge seconds.
# run.sh --write FOLDER: writes the files that are measured there instead, an absolute name.
set -eu
cd "$(dirname "$0")/../.."
. tests/x86-64.sh
out=target/bench
mkdir -p $out
library
for file in judge/judge judge/make bench/bench; do
    compile $out/${file#*/}.o tests/$file.c -I tests/judge
done
link $out/bench $out/bench.o $out/judge.o $out/make.o $archive
$out/bench "$@"
