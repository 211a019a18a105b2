#!/usr/bin/env bash
# Conformance of models ten times as large, in one run: prints the ratio of the times of `check` on 10,000 and on 100,000 objects,
# for a chain of containments, a cycle of them, and an object that holds all others by a feature with an opposite; and where the
# metamodel grows too: objects without slots of a class with many features, one object with a slot of each of many features, such
# an object whose class asks for all of them, values of an enumeration with many literals, and values of many enumerations. A ratio
# near 10 is a time linear in the files.
set -u
here=$(cd "$(dirname "${BASH_SOURCE[0]}")/.." && pwd)
work=$(mktemp -d)
trap 'rm -rf "$work"' EXIT
program="$here/crates/qvto/out/qvto"
[ -x "$program" ] || "$here/qvto" >/dev/null 2>&1
cd "$work" || exit 1
cat >v.json <<'JSON'
{"classes":[{"features":[{"containment":true,"name":"parts","opposite":"whole","type":"N","upper":"*"},{"name":"whole","opposite":"parts","type":"N"},{"name":"likes","opposite":"liked","type":"N","upper":"*"},{"name":"liked","opposite":"likes","type":"N","upper":"*"}],"name":"N"}],"name":"V"}
JSON
chain() { # an object in the one before it
  awk -v n="$1" 'BEGIN { printf "{\"objects\":["; for (i = 0; i < n; i++) { printf "%s{\"class\":\"N\",\"id\":\"n%d\",\"slots\":{", i ? "," : "", i;
    if (i + 1 < n) printf "\"parts\":[\"n%d\"]%s", i + 1, i ? "," : ""; if (i) printf "\"whole\":\"n%d\"", i - 1; printf "}}" } print "]}" }' >"chain$1.json"
}
cycle() { # the first in the last
  awk -v n="$1" 'BEGIN { printf "{\"objects\":["; for (i = 0; i < n; i++) printf "%s{\"class\":\"N\",\"id\":\"n%d\",\"slots\":{\"parts\":[\"n%d\"],\"whole\":\"n%d\"}}", i ? "," : "", i, (i + 1) % n, (i + n - 1) % n; print "]}" }' >"cycle$1.json"
}
star() { # all held by the first
  awk -v n="$1" 'BEGIN { printf "{\"objects\":[{\"class\":\"N\",\"id\":\"n0\",\"slots\":{\"likes\":["; for (i = 1; i < n; i++) printf "%s\"n%d\"", (i > 1 ? "," : ""), i; printf "]}}";
    for (i = 1; i < n; i++) printf ",{\"class\":\"N\",\"id\":\"n%d\",\"slots\":{\"liked\":[\"n0\"]}}", i; print "]}" }' >"star$1.json"
}
features() { # a metamodel of one class with so many, which ask for an item or not
  awk -v n="$1" -v asks="$2" 'BEGIN { printf "{\"classes\":[{\"features\":["; for (i = 0; i < n; i++) printf "%s{%s\"name\":\"f%d\",\"type\":\"Integer\"}", (i ? "," : ""), (asks == "ask" ? "\"lower\":1," : ""), i; print "],\"name\":\"N\"}],\"name\":\"V\"}" }' >v.json
}
filled() { # one object with so many slots
  awk -v n="$1" 'BEGIN { printf "{\"objects\":[{\"class\":\"N\",\"id\":\"n\",\"slots\":{"; for (i = 0; i < n; i++) printf "%s\"f%d\":%d", (i ? "," : ""), i, i; print "}}]}" }' >"$2$1.json"
}
bare() { # objects without slots, of a class with eight times as many features
  features $(($1 * 8)) none
  awk -v n="$1" 'BEGIN { printf "{\"objects\":["; for (i = 0; i < n; i++) printf "%s{\"class\":\"N\",\"id\":\"n%d\"}", i ? "," : "", i; print "]}" }' >"bare$1.json"
}
slots() { # all of them filled
  features "$1" none
  filled "$1" slots
}
asked() { # all of them asked for, and filled
  features "$1" ask
  filled "$1" asked
}
literals() { # 560 values of each of so many
  awk -v n="$1" 'BEGIN { printf "{\"classes\":[{\"features\":[{\"name\":\"es\",\"type\":\"E\",\"unique\":false,\"upper\":\"*\"}],\"name\":\"N\"}],\"enums\":[{\"literals\":["; for (i = 0; i < n; i++) printf "%s\"l%d\"", (i ? "," : ""), i; print "],\"name\":\"E\"}],\"name\":\"V\"}" }' >v.json
  awk -v n="$1" 'BEGIN { printf "{\"objects\":[{\"class\":\"N\",\"id\":\"n\",\"slots\":{\"es\":["; for (i = 0; i < n * 560; i++) printf "%s\"l%d\"", (i ? "," : ""), i % n; print "]}}]}" }' >"literals$1.json"
}
enumerations() { # a value of each of so many
  awk -v n="$1" 'BEGIN { printf "{\"classes\":[{\"features\":["; for (i = 0; i < n; i++) printf "%s{\"name\":\"f%d\",\"type\":\"E%d\"}", (i ? "," : ""), i, i; printf "],\"name\":\"N\"}],\"enums\":["; for (i = 0; i < n; i++) printf "%s{\"literals\":[\"l\"],\"name\":\"E%d\"}", (i ? "," : ""), i; print "],\"name\":\"V\"}" }' >v.json
  awk -v n="$1" 'BEGIN { printf "{\"objects\":[{\"class\":\"N\",\"id\":\"n\",\"slots\":{"; for (i = 0; i < n; i++) printf "%s\"f%d\":\"l\"", (i ? "," : ""), i; print "}}]}" }' >"enumerations$1.json"
}
seconds() { # of a run, in microseconds
  local begin end
  begin=$(date +%s%N)
  "$program" check v.json "$1" >line 2>&1
  end=$(date +%s%N)
  echo $(((end - begin) / 1000))
}
tell() { # a form at two sizes
  local few many
  "$1" "$2"
  few=$(seconds "$1$2.json")
  "$1" "$3"
  many=$(seconds "$1$3.json")
  echo "$1: $2: $few us, $3: $many us, ratio $(awk "BEGIN{printf \"%.1f\", $many/$few}"); $(cat line)"
}
for form in chain cycle star; do
  tell "$form" 10000 100000
done
tell bare 300 3000
tell slots 2000 20000
tell asked 2000 20000
tell literals 100 1000
tell enumerations 1200 12000
