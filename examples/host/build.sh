#!/bin/sh
# Builds target/host from examples/host/host.c and the library. It is a C program like any other:
#     (cd crates/capi && rt lib)
#     cc -O2 -I include examples/host/host.c crates/capi/out/libcapi.a -o target/host
# What is done here comes to the same, with the kit's linker and C library.
set -eu
cd "$(dirname "$0")/../.."
mkdir -p target
. tests/x86-64.sh
library
compile target/host.o examples/host/host.c
link target/host target/host.o $archive
