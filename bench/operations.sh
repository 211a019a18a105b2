#!/usr/bin/env bash
# What operations on collections and texts cost, as ratios of processor time to a plain loop over a vector of the same values: one
# table, each row with the least of five calls, its ratio, and its bar where it has one. The last line names the rows above a bar.
# * Of a million numbers, or so many texts, `asSet`, `union`, `intersection`, `-` and `includesAll` within 3 times a sort of a copy
#   (the argument of `includesAll` has all of the source's items, that of the others half of them and as many others).
# * `including` and `append` within 1.5 times a copy, in the order that the items have in the collection: into a Sequence, and into
#   any collection that is known to be as made; with the source handed over (`onto`) they copy nothing.
# * `indexOf`, `substring` and `at` of a text of a million characters within 3 times a loop over its characters; the last text that
#   `indexOf` looks for is half of the text and then a letter that stands nowhere.
# * Each ratio against that of a quarter of the items: 1 where it grows as the loop does, which is linear or, a sort, n log n; 4 or 3.6
#   where it grows as the square; at most 3, since look-ups by hash cost more for each item where no cache holds the list. A row that
#   takes less than 2 ms is too short to tell.
# A row that is above a bar is measured again, with its loop, up to twice: what else the machine does takes the caches too.
# Rows without a bar have two fifths of the items. Each answer is within the limit of a million: where an item is put in, the source has
# ten fewer; a union has a million items itself, two thirds of which are those of the source of a Set or an OrderedSet, else half.
# The status is 0 where no row is above a bar. It takes some two minutes of processor time.
#   bench/operations.sh [ITEMS]     the number of items in place of a million
set -u
here=$(cd "$(dirname "${BASH_SOURCE[0]}")/.." && pwd)
program="$here/crates/qvt_speed/out/qvt_speed"
[ -x "$program" ] || (cd "$here/crates/qvt_speed" && rt run </dev/null >/dev/null 2>&1)
most=${1:-1000000}
least() { # FORM.. ITEMS KIND NUMBER: the least of the microseconds that five calls take
  "$program" operations time "$@" 5 | sort -n | head -n 1
}
declare -A bases
base() { # LOOP ITEMS KIND NUMBER: what the plain loop takes, into `taken`
  local key="$*"
  [ "$1" != sort ] || key="sort $2 $4"
  [ -n "${bases[$key]-}" ] || bases[$key]=$(least "$@")
  taken=${bases[$key]}
}
above=()
row() { # FORM ITEMS KIND BASE BAR: the form of two words where it has two, the bar `-` where there is none
  local form=$1 items=$2 kind=$3 base=$4 bar=$5 many=$most part whole by_part by_whole taken attempt said
  [ "$bar" != - ] || many=$((most * 2 / 5))
  case $form-$kind in
    union-set | union-ordered) many=$((many * 2 / 3)) ;;
    union-*) many=$((many / 2)) ;;
    *including-* | *append-* | prepend-* | insertAt-*) many=$((many - 10)) ;;
  esac
  for attempt in 1 2 3; do
    base "$base" "$items" "$kind" "$many" && by_whole=$taken
    base "$base" "$items" "$kind" $((many / 4)) && by_part=$taken
    # shellcheck disable=SC2086
    part=$(least $form "$items" "$kind" $((many / 4)))
    # shellcheck disable=SC2086
    whole=$(least $form "$items" "$kind" "$many")
    [ -n "$part" ] && [ -n "$whole" ] && [ -n "$by_part" ] && [ -n "$by_whole" ] || { echo "$form of $items in a $kind was not done" >&2; exit 2; }
    said=$(awk -v form="$form" -v items="$items" -v kind="$kind" -v many="$many" -v base="$base" -v bar="$bar" -v part="$part" -v whole="$whole" -v by_part="$by_part" -v by_whole="$by_whole" 'BEGIN {
      ratio = whole / (by_whole > 0 ? by_whole : 1); growth = ratio * by_part / (part > 0 ? part : 1); beyond = ""
      if (bar != "-" && ratio > bar) beyond = "ratio"
      if (whole >= 2000 && growth > 3) beyond = beyond (beyond == "" ? "" : " and ") "growth"
      printf "%-20s %-8s %-9s %8d %10.3f %8.2f of %-6s %4s %7s %4s%s", form, items, kind, many, whole / 1000, ratio, base, bar, whole < 2000 ? "-" : sprintf("%.1f", growth), 3, beyond == "" ? "" : "  ABOVE: " beyond
      exit beyond != ""
    }') && break
    bases=()
    [ "$attempt" -lt 3 ] || above+=("$form of $items in a $kind")
  done
  echo "$said"
}
printf '%-20s %-8s %-9s %8s %10s %18s %4s %7s %4s\n' form of kind number ms ratio bar growth bar
for items in numbers texts; do
  row asSet $items sequence sort 3
  for kind in set ordered; do
    for form in union minus includesAll; do row $form $items $kind sort 3; done
  done
  for kind in set bag; do row intersection $items $kind sort 3; done
  for form in union includesAll; do
    for kind in sequence bag; do row $form $items $kind sort 3; done
  done
  for form in including append; do row $form $items sequence copy 1.5; done
  for kind in set bag ordered; do row "made including" $items $kind copy 1.5; done
  row "made append" $items ordered copy 1.5
  for kind in bag set ordered; do row including $items $kind copy -; done
  for kind in sequence bag set ordered; do row "onto including" $items $kind copy -; done
  for kind in sequence bag set ordered; do row "made-onto including" $items $kind copy -; done
  for form in asBag asSequence asOrderedSet; do row $form $items sequence sort -; done
  row excludesAll $items set sort -
  for kind in sequence set ordered; do row excluding $items $kind copy -; done
  for kind in sequence ordered; do
    for form in prepend insertAt reverse; do row $form $items $kind copy -; done
    for form in at indexOf first last; do row $form $items $kind copy -; done
  done
  row subSequence $items sequence copy -
  row subOrderedSet $items ordered copy -
  for form in flatten min max includes count equal size isEmpty isInvalid; do row $form $items sequence copy -; done
done
for form in "made including" "made append" "made-onto including" "made-onto append"; do row "$form" rising ordered copy -; done
row sum numbers sequence copy -
for form in textIndexOf textIndexOfHalf textSubstring textAt; do row $form letters sequence chars 3; done
for form in textEqual textLess textConcat textSize textCharacters textStartsWith textEndsWith; do row $form letters sequence chars -; done
for form in textToUpper textToLower textFirstToUpper textFirstToLower; do row $form letters sequence chars -; done
row textToInteger digits sequence chars -
if [ ${#above[@]} -gt 0 ]; then
  printf -v names '%s, ' "${above[@]}"
  echo "above a bar: ${names%, }"
  exit 1
fi
echo "no row is above a bar"
