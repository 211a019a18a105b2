#!/usr/bin/env bash
# What runs cost, as ratios of processor time: each row is one transformation at three sizes, each ten times the one before. It prints
# the least time of the runs at each size, less a run that does nothing; how the time grew with each step, where 10 is linear and 13
# or so n log n; and at the greatest size the ratio to the row's baseline (bench/baseline.rs, plain Rust by rustc -O), which does the
# same loop over its own structs, or the same expression on a tree interpreter of its own with values of the same sorts and one unit of
# cost for each node. Objects are of an intermediate class, so none is written. The last line names the rows that grew by more than 20
# at the last step, where the time is long enough to tell. A row that would take too long stops at the size before.
#   bench/run.sh [ROW..]     the rows whose names these are, in place of all
# The program is crates/qvto/out/qvto, or the one that QVTO names; without rustc the baselines are left out.
set -u
here=$(cd "$(dirname "${BASH_SOURCE[0]}")/.." && pwd)
work=$(mktemp -d)
trap 'rm -rf "$work"' EXIT
program=${QVTO:-$here/crates/qvto/out/qvto}
[ -x "$program" ] || "$here/qvto" >/dev/null 2>&1
times=${TIMES:-3} # runs of each size
most=${MOST:-60}  # seconds of processor time that a size may take, by the growth of the one before
cd "$work" || exit 1
baseline=
command -v rustc >/dev/null 2>&1 && rustc -O -o baseline "$here/bench/baseline.rs" && baseline=./baseline
echo '{"classes":[],"name":"M"}' >m.json
echo '{"fuel":1000000000,"inputs":[],"metamodels":["m.json"],"outputs":[{"file":"o.json","model":"t"}],"text":"t.qvto"}' >job.json
spent() { # COMMAND..: milliseconds of processor time, the least of the runs, into `took`
  local run said TIMEFORMAT='%U %S'
  took=
  for run in $(seq "$times"); do
    said=$({ time "$@" >told 2>&1; } 2>&1) || { echo "failed: $*: $(cat told)" >&2; exit 2; }
    said=$(awk '{printf "%d", ($1 + $2) * 1000}' <<<"$said")
    [ -n "$took" ] && [ "$took" -le "$said" ] || took=$said
    [ "$said" -lt 3000 ] || break
  done
}
text() { # STATEMENTS [UNITS]: the transformation of these
  printf "modeltype MT uses 'M';\ntransformation T(out t : MT);\nintermediate class N { a : Integer; s : String; next : N; many : Sequence(N); }\nmain() { %s }\n%s\n" "$1" "${2-}" >t.qvto
}
text ''
spent "$program" run job.json && nothing=$took
steep=()
row() { # NAME SIZE BASELINE STATEMENTS [UNITS]: # stands for the size
  local name=$1 size=$2 base=$3 first=0 second=0 third=0 by=- step told
  [ ${#asked[@]} -eq 0 ] || [[ " ${asked[*]} " == *" $name "* ]] || return 0
  for step in 1 2 3; do
    text "${4//\#/$size}" "${5-}"
    spent "$program" run job.json
    took=$((took > nothing ? took - nothing : 0))
    first=$second second=$third third=$took
    told+=$(printf '%9d %8d' "$size" "$took")
    [ "$step" -eq 1 ] || told+=$(awk "BEGIN{printf \" x%-5.1f\", $third / ($second > 0 ? $second : 1)}")
    [ "$step" -lt 3 ] || break
    # the next size, if it may take so long
    [ "$(awk "BEGIN{print ($third * ($second > 2 ? $third / $second : 10) > $most * 1000)}")" -eq 0 ] || break
    size=$((size * 10))
  done
  if [ -n "$baseline" ] && [ "$base" != - ]; then
    spent $baseline $base "$size"
    by=$(awk "BEGIN{printf \"%.1f\", $third * 10 / ($took > 0 ? $took : 1)}")
  fi
  [ "$third" -lt 50 ] || [ "$second" -eq 0 ] || [ "$third" -lt $((second * 20)) ] || steep+=("$name")
  printf '%-16s %s   %s\n' "$name" "$told" "$by"
}
asked=("$@")
echo "a run that does nothing: $nothing ms; rows: sizes with milliseconds and growth; times the baseline"
row objects 2000 objects 'var l : N; Sequence{1..#}->forEach(i) { l := object N { a := i; s := '"'x'"'; next := l; }; };'
row new 2000 objects 'var l : N; Sequence{1..#}->forEach(i) { l := new N(i, l); };' 'constructor N::N(v : Integer, l : N) { a := v; s := '"'x'"'; next := l; }'
row helpers 2000 - 'Sequence{1..#}->forEach(i) { f(i); };' 'helper f(v : Integer) : Integer = v + 1;'
row mappings 2000 - 'Sequence{1..#}->forEach(i) { map m(i); };' 'mapping m(v : Integer) : N { a := v; }'
row again 2000 - 'Sequence{1..#}->forEach(i) { map m(1); };' 'mapping m(v : Integer) : N { a := v; }'
row contexts 2000 - 'Sequence{1..#}->collect(i | new N())->map m();' 'mapping N::m() : N { a := 1; }'
row resolves 200 - 'Sequence{1..#}->collect(i | new N())->forEach(n) { n.map m(); n.next := n.resolveone(N); };' 'mapping N::m() : N { a := 1; }'
row late 200 - 'Sequence{1..#}->collect(i | new N())->forEach(n) { n.map m(); n.next := n.late resolveone(N); };' 'mapping N::m() : N { a := 1; }'
row late-condition 200 - 'Sequence{1..#}->collect(i | new N())->forEach(n) { n.map m(); n.next := n.late resolveone(k : N | k.a = 1); };' 'mapping N::m() : N { a := 1; }'
row late-variable 200 - 'var ns := Sequence{1..#}->collect(i | new N()); ns->map m(); ns->forEach(n) { n.next := n.late resolveone(N); };' 'mapping N::m() : N { a := 1; }'
row collect 10000 collect 'var v := Sequence{1..#}->collect(i | i * 2 + 1)->sum();'
row select 10000 select 'var v := Sequence{1..#}->select(i | i * 2 > 1000)->size();'
row iterate 10000 iterate 'var v := Sequence{1..#}->iterate(i; s : Integer = 0 | s + i * 2);'
row forAll 10000 forAll 'var v := Sequence{1..#}->forAll(i | i * 2 > 1);'
row exists 10000 exists 'var v := Sequence{1..#}->exists(i | i * 2 < 1);'
row any 10000 any 'var v := Sequence{1..#}->any(i | i * 2 < 1);'
row one 10000 one 'var v := Sequence{1..#}->one(i | i * 2 < 3);'
row sortedBy 10000 - 'var v := Sequence{1..#}->sortedBy(i | - i)->size();'
row while 10000 while 'var i := 0; while (i < #) { i := i + 1; };'
row walk 1000 - 'var o := object N { many := Sequence{1..#}->collect(i | new N()); }; var v := 0; o.many->forEach(n) { v := v + 1; };'
row walk-collect 1000 - 'var o := object N { many := Sequence{1..#}->collect(i | object N { a := i; }); }; var v := o.many->collect(n | n.a)->sum();'
row at-variable 200 - 'var xs := Sequence{1..#}; var i := 1; var v := 0; while (i <= xs->size()) { v := v + xs->at(i); i := i + 1; };'
row at-slot 200 - 'var o := object N { many := Sequence{1..#}->collect(i | new N()); }; var i := 1; while (i <= o.many->size()) { o.many->at(i).a := i; i := i + 1; };'
row at-slot-alone 200 - 'var o := object N { many := Sequence{1..#}->collect(i | new N()); }; var i := 1; while (i <= #) { o.many->at(i).a := i; i := i + 1; };'
row add-variable 200 - 'var xs := Sequence{0}; Sequence{1..#}->forEach(i) { xs += i; };'
row add-slot 200 - 'var o := object N { }; Sequence{1..#}->forEach(i) { o.many += new N(); };'
row closure 200 - 'var l : N; Sequence{1..#}->forEach(i) { l := object N { next := l; }; }; var v := l->closure(n | n.next)->size();'
[ ${#steep[@]} -eq 0 ] || echo "more than n log n: ${steep[*]}"
