# Sourced from the repository's folder: C programs for x86-64 that link the library.
kit=$(dirname "$(rt doc)")

archive=target/staticlib/libcapi.a

# library: proves and writes the archive, unless it stands there and no source is newer than its mark, which is as old as those it was made of
library() {
    mark=target/library.mark
    if [ -f $archive ] && [ -f $mark ] && [ -z "$(find crates.txt crates/*/src crates/*/specs crates/*/proofs -newer $mark -print | head -n 1)" ]; then return; fi
    mkdir -p target/staticlib
    touch $mark.new
    (cd crates/capi && rt lib) >target/library.log 2>&1 || { cat target/library.log; return 1; }
    cp crates/capi/out/libcapi.a $archive
    mv $mark.new $mark
}

# compile OBJECT FILE [WORDS...]
compile() {
    object=$1 file=$2
    shift 2
    clang --target=x86_64-linux-gnu -std=c11 -Wall -Wextra -Werror -O2 -fPIC -fno-stack-protector -nostdlibinc -isystem tests/libc -I include \
        "$@" -c "$file" -o "$object"
}

# link PROGRAM FILE...: objects, and the archive where the library is called
link() {
    program=$1
    shift
    "$kit/bin/rattle-link" --target x86_64-unknown-linux-gnu --toolchain "$kit/toolchain" -o "$program" "$@" >"$program.log" 2>&1 \
        || { cat "$program.log"; return 1; }
}
