#!/usr/bin/env bash
# Proves and builds a program of the bench that is Rattle: program.sh NAME FOLDER CRATE..
# It is no crate of the repository, whose gate would prove it and compare what it prints, so the files in its FOLDER
# end in .in, and it is proved and built in a folder outside. Eight zeros are its input there.
set -eu
bench=$(cd "$(dirname "$0")" && pwd)
root=$(dirname "$bench")
name=$1
folder=$bench/$2
crates=${*:3}
program=$bench/out/$name
cd "$root"

is_built() {
  local sources
  sources=$(cd crates && find $crates -path '*/out' -prune -o -type f -print | sed 's,^,crates/,')
  [ -x "$program" ] && [ -z "$(find $sources "$folder"/*.rt.in -newer "$program")" ]
}

build() {
  copy=$(mktemp -d)
  trap 'rm -rf "$copy"' EXIT
  mkdir -p "$copy/crates/$name/src"
  cp HANDLES "$copy"
  for crate in $crates; do
    cp -a "crates/$crate" "$copy/crates"
  done
  grep -E "^(${crates// /|}):" crates.txt > "$copy/crates.txt"
  echo "$name: $crates anyhow" >> "$copy/crates.txt"
  for file in "$folder"/*.rt.in; do
    cp "$file" "$copy/crates/$name/src/$(basename "$file" .in)"
  done
  (cd "$copy/crates/$name" && head -c 8 /dev/zero | timeout -k 5 3600 rt run) > "$program.log" 2>&1 || {
    tail -n 20 "$program.log" >&2
    exit 1
  }
  cp "$copy/crates/$name/out/$name" "$program"
}

is_built || build
