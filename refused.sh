#!/bin/sh
# Programs that the compiler must refuse before any proof. Each edit of refused/ is made to a copy of the
# sources, whose `rt check` must then end at once, with the error of the edit's 'says:' line and no other.
# (A must-fail edit has to reach the prover, so none can show this.)
#
# An edit has five lines: 'crate: NAME', 'file: PATH' in that crate, 'old: TEXT', which stands once in the
# file, 'new: TEXT' to stand in its place, and 'says: ERROR', the compiler's words between the place in
# the file and any help.
# Prints a line for each edit; ends with status 0 only if every one is refused as it says.
set -eu
root=$(cd "$(dirname "$0")" && pwd)
copy=$(mktemp -d)
trap 'rm -rf "$copy"' EXIT
trap 'exit 1' HUP INT TERM
field() { sed -n "s/^$1: //p" "$edit"; }
tried=0 failed=0
fail() { echo "FAILED ${edit##*/}: $1"; failed=$((failed + 1)); }
for edit in "$root"/refused/*.edit; do
    [ -f "$edit" ] || continue
    tried=$((tried + 1))
    crate=$(field crate) file=$(field file) says=$(field says)
    if [ -z "$crate" ] || [ -z "$file" ] || [ -z "$(field old)" ] || [ -z "$says" ]; then
        fail "a line is missing"
        continue
    fi
    # What a crate's check reads, and nothing of what an earlier one wrote.
    rm -rf "$copy/repository"
    for folder in "$root"/crates/*/; do
        into=$copy/repository/crates/$(basename "$folder")
        mkdir -p "$into"
        for part in src specs proofs; do
            [ ! -d "$folder$part" ] || cp -r "$folder$part" "$into/"
        done
    done
    cp "$root/crates.txt" "$copy/repository/"
    if ! OLD=$(field old) NEW=$(field new) awk '
        { text = text $0 "\n" }
        END {
            old = ENVIRON["OLD"]; at = index(text, old)
            if (!at || index(substr(text, at + 1), old)) exit 3
            printf "%s%s%s", substr(text, 1, at - 1), ENVIRON["NEW"], substr(text, at + length(old))
        }' "$root/crates/$crate/$file" >"$copy/edited"; then
        fail "its old text does not stand once in crates/$crate/$file"
        continue
    fi
    mv "$copy/edited" "$copy/repository/crates/$crate/$file"
    if (cd "$copy/repository/crates/$crate" && rt check) >"$copy/log" 2>&1; then
        fail "the compiler takes it"
        continue
    fi
    # Before an error stands its place, 'PATH:LINE:COLUMN: ', and behind it may stand a help and notes.
    errors=$(sed -n 's/^.*:[0-9]*:[0-9]*: \(error.*\)$/\1/p' "$copy/log" | sed 's/: help: .*//; s/: note: .*//')
    if [ "$errors" = "$says" ]; then
        echo "refused ${edit##*/}: $says"
    else
        fail "the compiler says something else:"
        head -n 5 "$copy/log"
    fi
done
echo "$tried tried, $failed failed"
[ "$tried" -gt 0 ] && [ "$failed" -eq 0 ]
