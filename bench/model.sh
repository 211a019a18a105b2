#!/usr/bin/env bash
# Models of nearly 16 MiB and of a tenth of that, in one run: prints for objects that refer to each other, for one object that
# holds all others, and for long lists of texts and numbers, what reading, loading and writing the model takes (without the look for
# its faults, which `check` makes), what reading and writing its JSON value alone takes, the ratio of the two, and how each grows.
# A growth near 10 is a time linear in the model.
set -u
here=$(cd "$(dirname "${BASH_SOURCE[0]}")/.." && pwd)
work=$(mktemp -d)
trap 'rm -rf "$work"' EXIT
program="$here/crates/qvt_speed/out/qvt_speed"
[ -x "$program" ] || (cd "$here/crates/qvt_speed" && rt run </dev/null >/dev/null 2>&1)
cd "$work" || exit 1
times=${1:-5}
cat >m.json <<'JSON'
{"classes":[{"features":[{"name":"name","type":"String"},{"name":"size","type":"Integer"},{"name":"next","type":"N"},{"name":"likes","type":"N","unique":false,"upper":"*"},{"containment":true,"name":"parts","opposite":"whole","type":"N","upper":"*"},{"name":"whole","opposite":"parts","type":"N"},{"name":"texts","type":"String","unique":false,"upper":"*"},{"name":"numbers","type":"Integer","upper":"*"}],"name":"N"}],"name":"M"}
JSON
links() { # each refers to three others, far away
  awk -v n="$1" 'BEGIN { printf "{\"objects\":["; for (i = 0; i < n; i++)
    printf "%s{\"class\":\"N\",\"id\":\"node%d\",\"slots\":{\"likes\":[\"node%d\",\"node%d\"],\"name\":\"name of node %d\",\"next\":\"node%d\",\"size\":%d}}", (i ? "," : ""), i, (i * 7919) % n, (i * 104729 + 1) % n, i, (i * 31 + 7) % n, i * 17;
    print "]}" }' >d.json
}
parts() { # all in the first
  awk -v n="$1" 'BEGIN { printf "{\"objects\":[{\"class\":\"N\",\"id\":\"node0\",\"slots\":{\"parts\":["; for (i = 1; i < n; i++) printf "%s\"node%d\"", (i > 1 ? "," : ""), i; printf "]}}";
    for (i = 1; i < n; i++) printf ",{\"class\":\"N\",\"id\":\"node%d\",\"slots\":{\"whole\":\"node0\"}}", i; print "]}" }' >d.json
}
lists() { # ten objects with all else
  awk -v n="$1" 'BEGIN { printf "{\"objects\":["; for (k = 0; k < 10; k++) { printf "%s{\"class\":\"N\",\"id\":\"node%d\",\"slots\":{\"numbers\":[", (k ? "," : ""), k;
    for (i = 0; i < n; i++) printf "%s%d", (i ? "," : ""), i * 1001; printf "],\"texts\":["; for (i = 0; i < n; i++) printf "%s\"line %d: \\\"text\\\"\"", (i ? "," : ""), i; printf "]}}" } print "]}" }' >d.json
}
spent() { # the least microseconds of some runs of a form
  local begin end spent best=0
  for _ in $(seq "$times"); do
    begin=$(date +%s%N)
    "$program" model "$1" >/dev/null || echo "$1 refused" >&2
    end=$(date +%s%N)
    spent=$(((end - begin) / 1000))
    if [ $best -eq 0 ] || [ $spent -lt $best ]; then best=$spent; fi
  done
  echo $best
}
ratio() { awk "BEGIN{printf \"%.1f\", $1/$2}"; }
measure() { # sets bytes, json and model
  bytes=$(wc -c <d.json)
  json=$(spent json)
  model=$(($(spent write) - $(spent check) + $(spent read)))
}
tell() { # a form at two sizes
  "$1" "$2"
  measure
  local few_json=$json few_model=$model
  echo "$1: $bytes bytes: JSON $json us, model $model us, ratio $(ratio "$model" "$json")"
  "$1" "$3"
  measure
  echo "$1: $bytes bytes: JSON $json us, model $model us, ratio $(ratio "$model" "$json"); growth $(ratio "$json" "$few_json") and $(ratio "$model" "$few_model")"
}
tell links 12000 120000
tell parts 23000 230000
tell lists 5000 50000
