#!/usr/bin/env bash
# Typing transformations of up to 262,144 bytes against parsing them. Prints the least time by the clock of parsing, from the
# text at hand to the tree, and of typing, from the tree to the program; what typing a byte takes; how many times the parsing the
# typing takes; and of the whole texts how many times the typing of a tenth it takes, where 10 is linear. Each text is accepted. The
# last families are typed over 14,500 to 16,003 classes, a tenth of the text over 1,000 to 16,003, the others over three.
# Wants the program of crates/qvt_speed, and makes it where it is missing.
#   bench/typing.sh [RUNS [BYTES]]     of how many runs the least time is taken (15), and the size of the texts
set -u
here=$(cd "$(dirname "${BASH_SOURCE[0]}")/.." && pwd)
work=$(mktemp -d)
trap 'rm -rf "$work"' EXIT
program=${QVT_SPEED:-"$here/crates/qvt_speed/out/qvt_speed"}
[ -x "$program" ] || (cd "$here/crates/qvt_speed" && rt run </dev/null >/dev/null 2>&1)
cd "$work" || exit 1
times=${1:-15}
most=${2:-262144}
clocked() { # the least microseconds that parsing took, and that typing took, in $times runs
  local line parse typing least_parse=999999999 least_typing=999999999
  for _ in $(seq "$times"); do
    line=$("$program" typing time) || return 1
    read -r parse typing <<<"$line"
    [ "$parse" -lt "$least_parse" ] && least_parse=$parse
    [ "$typing" -lt "$least_typing" ] && least_typing=$typing
  done
  echo "$least_parse $least_typing"
}
tell() { # what the text is, and what the typing of a tenth of it took, or 0
  local bytes line parse typing growth=""
  bytes=$(wc -c <t.qvto)
  if ! line=$(clocked); then
    echo "$1, $bytes bytes: not accepted"
    status=1
    typing=0
    return
  fi
  read -r parse typing <<<"$line"
  [ "$2" -gt 0 ] && growth=", $(awk "BEGIN{printf \"%.1f\", $typing / $2}") times a tenth"
  echo "$1, $bytes bytes: parsed in $parse us, typed in $typing us, $(awk "BEGIN{printf \"%.1f ns a byte, %.1f times the parsing\", 1000 * $typing / $bytes, $typing / ($parse > 0 ? $parse : 1)}")$growth"
  tenth=$typing
}
# a text of so many bytes at most: what stands before, a piece again and again, what stands after; in a piece # is its number, ~ the
# number after that, and % the number of the next piece, which for the last is the first
texts() { # name, front (where it is empty, the one that is made for a text of so many bytes), piece, end
  local size before
  tenth=0
  for size in $((most / 10)) "$most"; do
    remade "$size"
    before=${2:-$front}
    printf '%s' "$before" >t.qvto
    awk -v most="$size" -v front="${#before}" -v piece="$3" -v end="$4" 'BEGIN{
      room = most - front - length(end)
      while (1) {
        long = piece; gsub(/[#%~]/, 1000 * 10, long)
        if (used + length(long) > room && count > 0) break
        used += length(long); count++
      }
      for (i = 0; i < count; i++) {
        one = piece; gsub(/#/, i, one); gsub(/~/, i + 1, one); gsub(/%/, (i + 1) % count, one)
        printf "%s", one
      }
      printf "%s", end
    }' >>t.qvto
    tell "$1" "$tenth"
  done
}
remade() { :; } # makes another metamodel or front for a text of so many bytes
repeat() { # text, times
  local all=""
  for _ in $(seq "$2"); do all+=$1; done
  printf '%s' "$all"
}
status=0
metamodel() { # how many classes it has in a chain below Named, and how many side by side below Book, beside Named, Book and Author
  awk -v most="$1" 'BEGIN{
    printf "{\"classes\":[{\"abstract\":true,\"features\":[{\"name\":\"name\",\"type\":\"String\"}],\"name\":\"Named\"}"
    printf ",{\"features\":[{\"name\":\"pages\",\"type\":\"Integer\"},{\"name\":\"writer\",\"type\":\"Author\"},{\"name\":\"authors\",\"ordered\":true,\"type\":\"Author\",\"upper\":\"*\"},{\"name\":\"next\",\"type\":\"Book\"}],\"name\":\"Book\",\"supers\":[\"Named\"]}"
    printf ",{\"features\":[{\"name\":\"born\",\"type\":\"Integer\"}],\"name\":\"Author\",\"supers\":[\"Named\"]}"
    for (i = 0; i < most; i++) printf ",{\"name\":\"C%d\",\"supers\":[\"%s\"]}", i, i ? "C" i - 1 : "Named"
    for (i = 0; i < most; i++) printf ",{\"name\":\"D%d\",\"supers\":[\"Book\"]}", i
    printf "],\"enums\":[{\"literals\":[\"prose\",\"verse\"],\"name\":\"Kind\"}],\"name\":\"M\"}"
  }' >m.json
}
metamodel 0
begin="modeltype MT uses 'M'; transformation T(in s : MT, out t : MT); "
main="${begin}main() { } "
texts "queries" "$main" 'query Book::q#(p : Integer) : Boolean = self.authors->select(a | a.born > p and not a.name.oclIsUndefined())->notEmpty(); ' ''
texts "queries that call each other" "$main" 'query Book::q#(p : Integer) : Integer = self.next.q%(p + 1) + q%(pages); ' ''
texts "mappings" "$main" 'mapping Book::m#() : Book when { self.pages > 0 } { name := self.name; authors := self.authors; next := self.next.map m%(); } ' ''
texts "mappings that inherit one" "$main mapping Book::m() : Book { } " 'mapping Book::n#() : Book inherits Book::m { } ' ''
texts "a chain of inherited mappings" "$main mapping Book::m0() : Book { } " 'mapping Book::m~() : Book inherits Book::m# { } ' ''
texts "one list of mappings" "$main mapping Book::m0() : Book { } mapping Book::m() : Book inherits Book::m0" ', Book::m0' ' { }'
texts "one disjunction" "$main mapping Book::m0() : Book { } mapping Book::m() : Book disjuncts Book::m0" ', Book::m0' ';'
texts "intermediate classes" "$main" 'intermediate class K# { a : Integer; b : Set(Book); c : K%; } ' ''
texts "a chain of intermediate classes" "$main intermediate class K0 { } " 'intermediate class K~ extends K# { a# : Integer; } ' ''
texts "a chain of intermediate classes after one with a name of theirs" "$main intermediate class X { a1 : Integer; } intermediate class K0 { } " 'intermediate class K~ extends K# { a# : Integer; } ' ''
properties() { # a class with so many properties, in the order of their numbers or against it
  front="${main}intermediate class $1 { $(seq -f "a%.0f : Integer;" -s ' ' "$2" "$3" "$4") } "
}
remade() { properties X $(($1 / 75)) -1 0; front+='intermediate class K0 { } '; }
texts "a chain of intermediate classes after one with their names, the last first" "" 'intermediate class K~ extends K# { a# : Integer; } ' ''
below() { # some classes, with @ for their numbers: as many as the room for properties taken from superclasses lets
  local at
  for at in $(seq "$1"); do front+=${2//@/$at}; done
}
remade() { properties K 1 1 $(($1 / 35)); below 13 'intermediate class L@ extends K { b@ : Integer; } '; }
texts "13 intermediate classes below one with many properties, each with one more" "" 'intermediate class Z# { z# : Integer; } ' ''
remade() { properties K 1 1 $(($1 / 35)); below 13 'intermediate class L@ extends K { b : Integer; } '; }
texts "13 intermediate classes below one with many properties, each with one more of the same name" "" 'intermediate class Z# { z# : Integer; } ' ''
remade() { properties K 1 1 $(($1 / 35)); }
texts "intermediate classes below one with many properties" "" 'intermediate class L# extends K { } ' ''
remade() { properties K 1 1 $(($1 / 35)); front+='intermediate class E { } '; }
texts "intermediate classes below two, of which one has many properties" "" 'intermediate class L# extends K, E { } ' ''
remade() { properties K 1 1 $(($1 / 35)); below 5 'intermediate class E@ { e@ : Integer; } intermediate class L@ extends E@, K { } '; }
texts "five intermediate classes below one with a property and one with many" "" 'intermediate class Z# { z# : Integer; } ' ''
remade() { properties K 1 1 300; below $(($1 / 1500)) 'intermediate class E@ { e@ : Integer; } intermediate class L@ extends E@, K { } '; }
texts "intermediate classes below one with a property and one with 300" "" 'intermediate class Z# { z# : Integer; } ' ''
remade() { properties K 1 1 $(($1 / 35)); front="${main}intermediate class X { b : Integer; } ${front#"$main"}"; below 13 'intermediate class L@ extends K { b : Integer; } '; }
texts "13 intermediate classes below one with many properties, each with one more of a name that stood before" "" 'intermediate class Z# { z# : Integer; } ' ''
remade() { :; }
texts "variables of one block" "${begin}main() { var first : Integer := 1; " 'var x# : Integer := first + #; if (x# = null) { first := x#; } ' '}'
texts "variables of many blocks" "${begin}main() { var first : Integer := 1; " 'while (first < #) { var x := first; first := x + 1; } ' '}'
texts "late resolves" "${begin}main() { var b := object Book { }; " 'b.authors += s.objectsOfType(Book).late resolve(a : Author | a.born = #); ' '}'
texts "objects" "${begin}main() { " 'object Book { name := "x"; pages := #; authors += object Author { born := #; }; }; ' '}'
texts "one sum" "${main}query Book::q() : Integer = 1" ' + self.pages' ';'
texts "one collection" "${main}query q() : Set(Integer) = Set{1" ', #' '};'
texts "one collection of objects" "${main}helper f() : Sequence(Named) { return Sequence{object Author { }" ', object Author { }' '}; }'
texts "steps of one expression" "${main}query Book::q() : Book = self" '.next' ';'
texts "arrows of one expression" "${main}query Book::q() : OrderedSet(Author) = self.authors" '->select(a | a.born > #)' ';'
texts "signs of one operand" "${main}query q() : Boolean = " 'not ' 'true;'
texts "deep brackets" "$main" "query q#() : Integer = $(repeat '(1 + ' 60)1$(repeat ')' 60); " ''
texts "deep objects" "$main" "helper h#() { $(repeat 'object Book { next := ' 60)null$(repeat '; }' 60); } " ''
texts "deep conditionals" "$main" "query q#(a : Boolean) : Integer = $(repeat 'if a then 1 else ' 60)#$(repeat ' endif' 60); " ''
texts "deep iterators" "$main" "query Book::q#() : Boolean = $(repeat 'authors->exists(born = 1 or ' 60)true$(repeat ')' 60); " ''
texts "deep types" "$main" "query q#(p : $(repeat 'Set(' 60)Integer$(repeat ')' 60)) : Boolean = p = null; " ''
texts "deep blocks" "$main" "helper h#(a : Boolean) { $(repeat 'if (a) { var x := 1; } while (a) { ' 60)$(repeat '}' 60) } " ''
# over many classes: typing extends the metamodels with the intermediate classes, also where there are none
metamodel 8000
texts "queries over many classes" "$main" 'query Book::q#(p : Integer) : Boolean = self.authors->select(a | a.born > p and not a.name.oclIsUndefined())->notEmpty(); ' ''
texts "queries of one name, of classes of a chain" "$main" 'query C#::q() : Integer = #; ' 'query Author::q() : Integer = 0;'
texts "queries of one name, of classes side by side" "$main" 'query D#::q() : Integer = #; ' 'query Book::q() : Integer = next.q();'
texts "queries of one name that are unlike each other" "$main" 'query D#::q() : Integer = #; query C#::q() : Boolean = true; ' ''
texts "queries of one name that answer each its class, of a chain" "$main" 'query C#::q() : C# = self; ' ''
texts "queries of one name that answer each its class, side by side" "$main" 'query D#::q() : D# = self; ' ''
texts "queries of one name with parameters, of a chain" "$main" 'query C#::q(a : Integer, b : String, c : Boolean, d : Set(Book)) : C# = self; ' ''
texts "two queries of each of many names" "$main" 'query Book::q#() : Integer = #; query C0::q#() : Integer = #; ' ''
texts "two queries of each of many names, of which one overrides the other" "$main" 'query Named::q#() : Integer = #; query C0::q#() : Integer = #; ' ''
texts "a hundred queries of each of many names" "$main" "$(for i in $(seq 0 99); do printf 'query D%d::q#() : Integer = #; ' "$i"; done)" ''
for count in 7 17 126 127; do
  texts "$count queries of each of many names" "$main" "$(for i in $(seq 0 $((count - 1))); do printf 'query D%d::q#() : Integer = #; ' "$i"; done)" ''
done
calls() { # so many queries of each of some names, on such a part of a text of so many bytes, for calls of one of them on the rest
  local name at
  front=$begin
  for name in $(seq $(($2 / $3 / 32 / $1 + 1))); do
    for at in $(seq 0 $(($1 - 1))); do front+="query D$at::q$name() : Integer = 1; "; done
  done
  front+="main() { var x : D$(($1 - 1)) := null; "
}
for family in "126 2" "127 2" "126 8" "127 8"; do
  read -r count part <<<"$family"
  remade() { calls "$count" "$1" "$part"; }
  texts "$count queries of each of some names on a part in $part of the text, and calls of one" "" 'x.q1(); ' '} '
done
remade() { :; }
texts "constructors" "$main" 'constructor D#::D#(p : Integer) { pages := p; } ' ''
# 16,003 classes, of which so many D have nothing above them; each other one is below one of these in turn, and so many last ones below two
spread() {
  awk -v tops="$1" -v joins="$2" 'BEGIN{
    printf "{\"classes\":[{\"name\":\"D0\"}"
    for (i = 1; i < tops; i++) printf ",{\"name\":\"D%d\"}", i
    for (i = 0; i < 16003 - tops - joins; i++) printf ",{\"name\":\"X%d\",\"supers\":[\"D%d\"]}", i, i % tops
    for (i = 0; i < joins; i++) printf ",{\"name\":\"J%d\",\"supers\":[\"D%d\",\"D%d\"]}", i, i % tops, (i + 1) % tops
    printf "],\"enums\":[],\"name\":\"M\"}"
  }' >m.json
}
for family in "6 0" "6 1" "6 8000" "7 0" "7 8000" "126 8000" "127 8000"; do
  read -r count joins <<<"$family"
  spread "$count" "$joins"
  texts "$count queries of each of many names, of $count classes; the others are below one of these, $joins of them below two" "$main" "$(for i in $(seq 0 $((count - 1))); do printf 'query D%d::q#() : Integer = #; ' "$i"; done)" ''
done
# queries of one name, each of a class that is below several with a query of that name, and has a class below it
fronts() { # what stands before them: the queries of so many classes
  front=$main
  for i in $(seq 0 $(($1 - 1))); do front+="query S$i::q() : S$i = self; "; done
}
overriding() { # a metamodel: so many classes S with nothing above them, X below all of these, and so many classes M below the named ones, each with one below it
  awk -v count="$1" -v supers="$2" -v most="$3" 'BEGIN{
    printf "{\"classes\":["
    for (i = 0; i < count; i++) { printf "{\"name\":\"S%d\"},", i; all = all (i ? "," : "") "\"S" i "\"" }
    printf "{\"name\":\"X\",\"supers\":[%s]}", all
    for (i = 0; i < most; i++) printf ",{\"name\":\"M%d\",\"supers\":[%s]},{\"name\":\"L%d\",\"supers\":[\"M%d\"]}", i, supers, i, i
    printf "],\"name\":\"M\"}"
  }' >m.json
}
besides() { # so many classes side by side, and below each two neighbours one more
  awk -v count="$1" 'BEGIN{
    printf "{\"classes\":["
    for (i = 0; i < count; i++) printf "{\"name\":\"S%d\"},{\"name\":\"M%d\",\"supers\":[\"S%d\",\"S%d\"]},", i, i, i, (i + 1) % count
    printf "{\"name\":\"S\"}],\"name\":\"M\"}"
  }' >m.json
}
remade() { besides $(($1 / 33)); }
texts "queries of one name, and classes below two of theirs" "$main" 'query S#::q() : Integer = #; ' ''
fronts 3
remade() { overriding 3 '"S0","S1","S2"' $((($1 - ${#front}) / 35)); }
texts "queries of one name that answer each its class, each below three" "$front" 'query M#::q() : M# = self; ' ''
fronts 500
remade() { overriding 500 '"X"' $((($1 - ${#front}) / 35)); }
texts "queries of one name that answer each its class, all below five hundred" "$front" 'query M#::q() : M# = self; ' ''
exit "$status"
