#!/usr/bin/env bash
# Parsing transformations of up to 262,144 bytes against reading their bytes alone, in one run. Prints the least time of parsing
# by the clock, from the text at hand to the tree, and what a byte takes. Then, of whole runs of the program, less one that
# reads the bytes alone: the least times of reading the tokens, and of the tree, which is dropped again; how many times the
# bytes' own run the whole one takes; and the time of printing what was read. Each text comes also at a tenth of the size.
# Wants the program of crates/qvt_speed, and makes it where it is missing.
set -u
here=$(cd "$(dirname "${BASH_SOURCE[0]}")/.." && pwd)
work=$(mktemp -d)
trap 'rm -rf "$work"' EXIT
program="$here/crates/qvt_speed/out/qvt_speed"
[ -x "$program" ] || (cd "$here/crates/qvt_speed" && rt run </dev/null >/dev/null 2>&1)
cd "$work" || exit 1
times=${1:-15}
measure() { # the least microseconds of $times runs
  local begin took least=999999999
  for _ in $(seq "$times"); do
    begin=$(date +%s%N)
    "$program" parse "$1" || exit 1
    took=$((($(date +%s%N) - begin) / 1000))
    [ "$took" -lt "$least" ] && least=$took
  done
  echo "$least"
}
clocked() { # the least microseconds that parsing took in $times runs
  local took least=999999999
  for _ in $(seq "$times"); do
    took=$("$program" parse time) || exit 1
    [ "$took" -lt "$least" ] && least=$took
  done
  echo "$least"
}
tell() { # what the file is
  local bytes parse least tokens tree print
  bytes=$(wc -c <t.qvto)
  parse=$(clocked)
  least=$(measure bytes)
  tokens=$(($(measure tokens) - least))
  tree=$(($(measure tree) - least))
  print=$(($(measure print) - least - tree))
  echo "$1, $bytes bytes: parsed in $parse us, $(awk "BEGIN{printf \"%.1f\", 1000 * $parse / $bytes}") ns a byte; runs: bytes $least us, tokens $tokens us, tree $tree us, $(awk "BEGIN{printf \"%.1f times the bytes\", ($tree + $least) / $least}"), print $print us"
}
# a text of so many bytes at most: what stands before, a piece again and again, what stands after
texts() { # name, front, piece, end
  local most
  for most in 26214 262144; do
    awk -v most="$most" -v front="$2" -v piece="$3" -v end="$4" 'BEGIN{
      count = int((most - length(front) - length(end)) / length(piece))
      printf "%s", front
      for (i = 0; i < count; i++) printf "%s", piece
      printf "%s", end
    }' >t.qvto
    tell "$1"
  done
}
repeat() { # text, times
  local all=""
  for _ in $(seq "$2"); do all+=$1; done
  printf '%s' "$all"
}
begin='transformation T(in m : M); '
texts "many queries" "$begin" 'query A::b(c : D) : E = self.f->select(x | x.g <> 1 and not x.h)->sum() + 2; ' ''
texts "statements of one block" "$begin main() { " 'var x : A := b.c("text", 12, true) * 3; if (x = null) { x := d; } ' '}'
texts "one sum" "$begin query q() : A = 1" ' + a.b' ';'
texts "one collection" "$begin query q() : A = Set{1" ', 22' '};'
texts "steps of one expression" "$begin query q() : A = a" '.b(1)->c()' ';'
texts "names of one path" "$begin query q() : A = a" '::b' ';'
texts "signs of one operand" "$begin query q() : A = 1 - " 'not ' '1;'
texts "deep brackets" "$begin" "query q() : A = $(repeat '(' 64)1$(repeat ')' 64); " ''
texts "deep objects" "$begin" "helper h() { $(repeat 'object A { x := ' 60)1$(repeat '; }' 60) } " ''
texts "deep conditionals" "$begin" "query q() : A = $(repeat 'if a then b else ' 60)c$(repeat ' endif' 60); " ''
