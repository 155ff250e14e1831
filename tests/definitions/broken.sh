#!/bin/sh
# broken.sh [FOLDER]: each edit of a definition under crates/rules/must-fail that names what it breaks is made in a copy, and the crates of laws must be
# refused at each law named. The worked cases are set aside there, so that no edit is refused by them. `small_pots.K` is row K of that theorem, where the
# law comes out false by computation. Works in the folder, which it makes anew: one that it removes in the end, where none is named. It lies outside the
# checkout, since rt ci refuses definitions that stand in no crate.
set -eu
root=$(cd "$(dirname "$0")/../.." && pwd)
if [ $# -gt 0 ]; then
    d=$1
    rm -rf "$d"
else
    d=$(mktemp -d)
    trap 'rm -rf "$d"' EXIT
fi
edits=$root/crates/rules/must-fail
crates=$(sed -n -E 's/^(rules|laws_[a-z]+):.*/\1/p' "$root/crates.txt")

# copy: the definitions and their laws, without the worked cases. What rt keeps beside them, in out/, stays.
copy() {
    for crate in $crates; do
        mkdir -p "$d/crates/$crate"
        for part in src specs proofs; do
            rm -rf "$d/crates/$crate/$part"
            [ ! -d "$root/crates/$crate/$part" ] || cp -r "$root/crates/$crate/$part" "$d/crates/$crate"
        done
    done
    rm "$d/crates/rules/specs/Worked.antt" "$d/crates/rules/specs/Listing.antt"
    sed -i '/^pub mod Worked$/d; /^pub mod Listing$/d' "$d/crates/rules/specs/Lib.antt"
    grep -E '^(rules|laws_[a-z]+):' "$root/crates.txt" >"$d/crates.txt"
}

# edited FILE OLD NEW: the file's text with OLD, which stands in it once, turned to NEW
edited() {
    OLD=$2 NEW=$3 awk '
        { text = text $0 "\n" }
        END {
            old = ENVIRON["OLD"]; at = index(text, old); rest = substr(text, at + length(old))
            if (!at || index(rest, old)) exit 1
            printf "%s%s%s", substr(text, 1, at - 1), ENVIRON["NEW"], rest
        }' "$1"
}

# apply EDIT: makes one edit in the copy, which may replace several texts
apply() {
    while IFS= read -r line; do
        case $line in
        'file: '*) file=${line#file: } ;;
        'old: '*) old=${line#old: } ;;
        'new: '*)
            edited "$d/crates/rules/$file" "$old" "${line#new: }" >"$d/edited" || { echo "$1: its text is not there once"; exit 1; }
            mv "$d/edited" "$d/crates/rules/$file"
            ;;
        esac
    done <"$1"
}

# refused: the laws that the check refused for themselves, as in "./specs/Money.antt:64:1: error: `not_at_most`: ..", not for a law that they cite; a row of
# small_pots by its number
refused() {
    grep -E '^\./specs/[^:]*:[0-9]+:[0-9]+: error: `[^`]*`:' "$d/log" | while IFS= read -r line; do
        law=$(printf '%s\n' "$line" | cut -d '`' -f 2)
        if [ "$law" = small_pots ]; then
            place=$(printf '%s\n' "$line" | sed 's/^\([^:]*\):\([0-9]*\):\([0-9]*\):.*/\2 \3/')
            law=$law.$(sed -n "${place% *}p" "$d/crates/laws_pot/specs/Pots.antt" | cut -c "1-${place#* }" | tr ',' '\n' | wc -l)
        fi
        echo "$law"
    done
}

# rooms LAW...: the crates in which these laws stand
rooms() {
    for law; do
        (cd "$d" && grep -l -E "^ *(pub )?${law%%.*} :" crates/laws_*/specs/*.antt) | cut -d / -f 2
    done | sort -u
}

# check CRATE: what rt says of it goes to the log
check() { (cd "$d/crates/$1" && rt check) >>"$d/log" 2>&1; }

copy
for crate in $crates; do
    check "$crate" || { tail -n 5 "$d/log"; echo "without an edit crate $crate is not proved"; exit 1; }
done
tried=0
for edit in "$edits"/*.edit; do
    breaks=$(sed -n 's/^breaks: //p' "$edit")
    [ -n "$breaks" ] || continue
    copy
    apply "$edit"
    : >"$d/log"
    check rules || { echo "$edit: crate rules is not proved with it"; exit 1; }
    # shellcheck disable=SC2086
    for crate in $(rooms $breaks); do check "$crate" || true; done
    refused >"$d/refused"
    for law in $breaks; do
        grep -qx -- "$law" "$d/refused" || { echo "$(basename "$edit" .edit) does not break $law"; exit 1; }
    done
    echo "$(basename "$edit" .edit): refused at $breaks"
    tried=$((tried + 1))
done
echo "$tried edits of a definition are refused at the laws that they break"
