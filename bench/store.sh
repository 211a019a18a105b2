#!/usr/bin/env bash
# What changes of a store cost: prints
# * how many assignments are done in a second on a one-to-one pair of opposites among 10,000 and among 100,000 objects, and the
#   ratio of the two costs. A change costs its slots and not the store, so the ratio is that of the machine's caches;
# * for 20,000 objects put last in one slot against 2,000, one after the other, the ratio of the costs: near 10 where the slot is
#   not unique, and in a containment, since an object knows the slot that holds it; in another unique slot each is compared with
#   those that are there, so it would near 100;
# * the ratio for 20,000 objects without links against 2,000.
set -u
here=$(cd "$(dirname "${BASH_SOURCE[0]}")/.." && pwd)
program="$here/crates/qvt_speed/out/qvt_speed"
[ -x "$program" ] || (cd "$here/crates/qvt_speed" && rt run </dev/null >/dev/null 2>&1)
changes=1000000
spent() { # the least microseconds of nine runs, or so many, of a form with so many objects and changes
  local begin end best=0 spent run
  for run in $(seq "${4:-9}"); do
    begin=$(date +%s%N)
    "$program" store "$1" "$2" "$3" >/dev/null
    end=$(date +%s%N)
    spent=$(((end - begin) / 1000))
    if [ $best -eq 0 ] || [ $spent -lt $best ]; then best=$spent; fi
  done
  echo $best
}
cost() { # microseconds of all changes of a form among so many objects
  echo $(($(spent "$1" "$2" "$3") - $(spent "$1" "$2" 0)))
}
ratio() { awk "BEGIN{printf \"%.2f\", $1/$2}"; }
few=$(cost link 10000 $changes)
many=$(cost link 100000 $changes)
echo "assignments a second: $(awk "BEGIN{printf \"%.0f\", $changes*1000000/$few}") among 10000 objects," \
  "$(awk "BEGIN{printf \"%.0f\", $changes*1000000/$many}") among 100000; ratio of the costs $(ratio "$many" "$few")"
for form in likes parts; do
  few=$(cost $form 2001 2000)
  many=$(cost $form 20001 20000)
  echo "$form: 2000 appends $few us, 20000 appends $many us, ratio $(ratio "$many" "$few")"
done
start=$(spent link 0 0 200)
few=$(($(spent link 2000 0 200) - start))
many=$(($(spent link 20000 0 200) - start))
echo "objects without links: 2000 $few us, 20000 $many us, ratio $(ratio "$many" "$few")"
