#!/usr/bin/env bash
# Tries each program of this folder in a copy of the libraries outside the tree. The first line of a program says what must come
# of it: `accepted`, or the name of the compiler's error, which has to stand in the program itself. Nothing is proved here.
set -euo pipefail
root=$(cd "$(dirname "$0")/.." && pwd)
copy=$(mktemp -d)
trap 'rm -rf "$copy"' EXIT

libraries="fixed tasks analysis planning"
mkdir -p "$copy/crates/tried/src"
for name in $libraries; do
    mkdir "$copy/crates/$name"
    for folder in src specs proofs; do
        cp -r "$root/crates/$name/$folder" "$copy/crates/$name/$folder"
    done
    grep "^$name:" "$root/crates.txt" >>"$copy/crates.txt"
done
echo "tried: $libraries" >>"$copy/crates.txt"

failed=0
for program in "$root"/refused/*.txt; do
    expected=$(sed -n '1s,^// expect: ,,p' "$program")
    cp "$program" "$copy/crates/tried/src/main.rt"
    status=0
    (cd "$copy/crates/tried" && rt try) >"$copy/said" 2>&1 || status=$?
    found=$(sed -n 's,^src/main.rt:[0-9:]* error\[\([a-z0-9-]*\)\].*$,\1,p' "$copy/said" | head -n 1)
    if [ "$status" -eq 0 ]; then found=accepted; fi
    if [ -n "$expected" ] && [ "$found" = "$expected" ]; then
        echo "refused/$(basename "$program"): $found"
    else
        echo "refused/$(basename "$program"): expected '$expected', found '$found'"
        tail -n 5 "$copy/said"
        failed=1
    fi
done
exit "$failed"
