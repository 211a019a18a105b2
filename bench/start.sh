#!/usr/bin/env bash
# Start-up and the first example against an empty program, in one run: prints the ratio of their times and the peak memory.
# Wants a C compiler for the empty program; without one the time alone is told.
set -u
here=$(cd "$(dirname "${BASH_SOURCE[0]}")/.." && pwd)
work=$(mktemp -d)
trap 'rm -rf "$work"' EXIT
cp "$here"/examples/first/*.json "$here"/examples/first/*.qvto "$work"
program="$here/crates/qvto/out/qvto"
[ -x "$program" ] || "$here/qvto" >/dev/null 2>&1
cd "$work" || exit 1
times=200
measure() { # seconds for $times runs
  local begin end
  begin=$(date +%s%N)
  for _ in $(seq $times); do "$@" >/dev/null; done
  end=$(date +%s%N)
  echo $(((end - begin) / times / 1000))
}
run=$(measure "$program" run job.json)
if command -v cc >/dev/null 2>&1; then
  echo 'int main(void){return 0;}' >empty.c && cc -O2 -o empty empty.c
  empty=$(measure ./empty)
  echo "first example: $run us a run; empty program: $empty us; ratio $(awk "BEGIN{printf \"%.2f\", $run/$empty}")"
else
  echo "first example: $run us a run"
fi
if command -v /usr/bin/time >/dev/null 2>&1; then
  /usr/bin/time -f "peak memory: %M KiB" "$program" run job.json >/dev/null
fi
