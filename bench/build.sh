#!/bin/bash
# Builds a benchmark program that the gate doesn't: build.sh NAME FOLDER makes it in a copy of the
# repository in FOLDER, where it proves it as any crate, and leaves it as FOLDER/NAME. Its files stand in
# bench/NAME as texts, since rt wants each of its own kinds of files in a crate. Wants the kit's rt.
set -euo pipefail
top=$(cd "$(dirname "$0")/.." && pwd)
name=$1
room=$2

mkdir -p "$room/repo/.git"
cp -r "$top/crates" "$top/crates.txt" "$top/HANDLES" "$room/repo"
cp -r "$top/bench/$name" "$room/repo/crates"
find "$room/repo/crates/$name" -name '*.txt' | while read -r file; do mv "$file" "${file%.txt}"; done
grep "^$name:" "$top/bench/programs.txt" >> "$room/repo/crates.txt"
(cd "$room/repo/crates/$name" && rt run) > "$room/build.log" 2>&1 || { cat "$room/build.log"; exit 1; }
mv "$room/repo/crates/$name/out/$name" "$room/$name"
