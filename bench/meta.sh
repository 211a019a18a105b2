#!/usr/bin/env bash
# Reading metamodels of up to 1 MiB against reading their JSON values alone, in one run: prints both times, less that of a
# metamodel without classes, and their ratio. Wants the program of crates/qvt_speed, and makes it where it is missing.
set -u
here=$(cd "$(dirname "${BASH_SOURCE[0]}")/.." && pwd)
work=$(mktemp -d)
trap 'rm -rf "$work"' EXIT
program="$here/crates/qvt_speed/out/qvt_speed"
[ -x "$program" ] || (cd "$here/crates/qvt_speed" && rt run </dev/null >/dev/null 2>&1)
cd "$work" || exit 1
times=${1:-10}
measure() { # microseconds a run of $times runs
  local begin end
  begin=$(date +%s%N)
  for _ in $(seq "$times"); do "$program" meta "$1" || exit 1; done
  end=$(date +%s%N)
  echo $(((end - begin) / times / 1000))
}
tell() { # what the file is
  local json meta
  json=$(($(measure json) - least))
  meta=$(($(measure meta) - least))
  echo "$1, $(wc -c <m.json) bytes: JSON $json us, metamodel $meta us, ratio $(awk "BEGIN{printf \"%.1f\", $meta/$json}")"
}
printf '{"classes":[],"name":"M"}' >m.json
least=$(measure json)
awk 'BEGIN{
  name = "ClassOfALongChainOfSuperclassesNo_"
  printf "{\"classes\":[{\"name\":\"%s0\"}", name
  for (i = 1; i < 10000; i++) printf ",{\"name\":\"%s%d\",\"supers\":[\"%s%d\"]}", name, i, name, i - 1
  printf "],\"name\":\"M\"}"
}' >m.json
tell "a chain of 10,000 classes"
awk 'BEGIN{
  printf "{\"classes\":[{\"name\":\"C0\"}"
  for (i = 1; i < 27000; i++) printf ",{\"name\":\"C%d\",\"supers\":[\"C%d\"]}", i, i - 1
  printf "],\"name\":\"M\"}"
}' >m.json
tell "a chain of 27,000 classes"
awk 'BEGIN{
  printf "{\"classes\":["
  for (i = 0; i < 3000; i++) {
    printf "%s{\"features\":[", (i ? "," : "")
    for (j = 0; j < 6; j++) printf "%s{\"name\":\"feature%d\",\"type\":\"Integer\",\"upper\":\"*\"}", (j ? "," : ""), j
    printf "],\"name\":\"Class%d\"}", i
  }
  printf "],\"name\":\"M\"}"
}' >m.json
tell "3,000 classes of 6 features"
awk 'BEGIN{
  printf "{\"classes\":[{\"features\":[{\"name\":\"f0\",\"type\":\"Integer\"}],\"name\":\"C0\"}"
  for (i = 1; i < 10000; i++) {
    printf ",{\"features\":[{\"name\":\"f%d\",\"type\":\"Integer\"}],\"name\":\"C%d\",\"supers\":[\"C%d\"]}", i, i, i - 1
  }
  printf "],\"name\":\"M\"}"
}' >m.json
tell "a chain of 10,000 classes with a feature each"
awk 'BEGIN{
  printf "{\"classes\":[{\"name\":\"C0\"}"
  for (i = 1; i < 950; i++) {
    printf ",{\"features\":[{\"name\":\"g%d\",\"type\":\"Integer\"}],\"name\":\"A%d\"}", i, i
    printf ",{\"features\":[{\"name\":\"f%d\",\"type\":\"Integer\"}],\"name\":\"C%d\",\"supers\":[\"A%d\",\"C%d\"]}", i, i, i, i - 1
  }
  printf "],\"name\":\"M\"}"
}' >m.json
tell "a chain of 950 classes with another superclass each, nearly as many as the room for their lists lets"
awk 'BEGIN{
  printf "{\"classes\":[{\"features\":["
  for (i = 0; i < 8900; i++) printf "%s{\"name\":\"a%d\",\"opposite\":\"b%d\",\"type\":\"B\",\"upper\":\"*\"}", (i ? "," : ""), i, i
  printf "],\"name\":\"A\"},{\"features\":["
  for (i = 0; i < 8900; i++) printf "%s{\"name\":\"b%d\",\"opposite\":\"a%d\",\"type\":\"A\",\"upper\":\"*\"}", (i ? "," : ""), i, i
  printf "],\"name\":\"B\"}],\"name\":\"M\"}"
}' >m.json
tell "8,900 pairs of opposites of two classes"
above() { # a class with so many features, and as many classes below it
  awk -v most="$1" 'BEGIN{
    printf "{\"classes\":[{\"features\":["
    for (i = 0; i < most; i++) printf "%s{\"name\":\"f%d\",\"type\":\"Integer\"}", (i ? "," : ""), i
    printf "],\"name\":\"C\"}"
    for (i = 0; i < most; i++) printf ",{\"name\":\"D%d\",\"supers\":[\"C\"]}", i
    printf "],\"name\":\"M\"}"
  }' >m.json
}
above 4000
tell "4,000 features above 4,000 classes"
above 15400
tell "15,400 features above 15,400 classes"
awk 'BEGIN{
  printf "{\"classes\":[],\"enums\":["
  for (i = 0; i < 30000; i++) printf "%s{\"literals\":[\"l\"],\"name\":\"E%d\"}", (i ? "," : ""), i
  printf "],\"name\":\"M\"}"
}' >m.json
tell "30,000 enumerations"
awk 'BEGIN{
  printf "{\"classes\":[],\"enums\":[{\"literals\":["
  for (i = 0; i < 90000; i++) printf "%s\"l%d\"", (i ? "," : ""), i
  printf "],\"name\":\"E\"}],\"name\":\"M\"}"
}' >m.json
tell "90,000 literals"
