#!/bin/sh
# Compiles each program of this folder over a copy of the crates, without a proof. Its first line says what is wanted:
# that it compiles, or the name of the error that refuses it. The first argument is the folder for the copy, and RT names
# the command rt.
set -eu
here=$(dirname "$0")
top=$here/../..
copy=$1
rt=${RT:-rt}
program=$copy/crates/refused_code
rm -rf "$copy"
mkdir -p "$program/src" "$program/specs" "$program/proofs"
for crate in trace_status trace_regs trace_options trace_pages trace_record refusing_allocator mem_views stop_history \
    stop_table trace_calls; do
  mkdir -p "$copy/crates/$crate"
  for part in src specs proofs; do cp -R "$top/crates/$crate/$part" "$copy/crates/$crate/"; done
  grep "^$crate:" "$top/crates.txt" >> "$copy/crates.txt"
done
echo "refused_code: stop_table trace_record trace_calls mem_views" >> "$copy/crates.txt"
touch "$program/specs/Lib.antt" "$program/proofs/Lib.antt"
for file in "$here"/*.rattle; do
  name=$(basename "$file" .rattle)
  wanted=$(sed -n '1s/^\/\/! Refused as \([a-z0-9-]*\): .*/\1/p' "$file")
  cp "$file" "$program/src/main.rt"
  status=0
  found=$(cd "$program" && "$rt" try 2>&1) || status=$?
  if [ -z "$wanted" ]; then
    [ "$status" = 0 ] || { echo "$found"; echo "refused-code: FAILED: $name does not compile" >&2; exit 1; }
    echo "$name: compiles"
  else
    errors=$(echo "$found" | sed -n 's/.*: error\[\([a-z0-9-]*\)\].*/\1/p' | sort -u)
    [ "$status" != 0 ] && [ "$errors" = "$wanted" ] || {
      echo "$found"
      echo "refused-code: FAILED: $name is not refused as $wanted" >&2
      exit 1
    }
    echo "$name: refused as $wanted"
  fi
done
rm -rf "$copy"
