#!/usr/bin/env bash
# Prints tables of the figures that bench/tree.sh keeps: thousand calls a second on 10,000 objects, and those of the tree as a multiple of the others';
# the same of the mixes by which a tree grows and shrinks, for trees that join and one that doesn't; nanoseconds of one client's call by the number of objects;
# and how many rows an object needs. With -m they are tables of Markdown.
#   bench/tables.sh [-m] [FILE [FILE]]
set -eu
markdown=0
if [ "${1:-}" = -m ]; then markdown=1; shift; fi
folder=$(dirname "${BASH_SOURCE[0]}")
csv=${1:-$folder/tree.csv} rows=${2:-$folder/rows.csv}

# Prints a row of cells, which | separates.
cells='function row(line, cell, count, i) {
    count = split(line, cell, "|")
    if (markdown) { gsub(/[|]/, " | ", line); print "| " line " |"; return }
    printf "%-16s", cell[1]
    for (i = 2; i <= count; i++) printf " %11s", cell[i]
    print ""
  }
  function head(title, line) {
    print (markdown ? title ":\n" : title)
    row(line)
    if (markdown) { gsub(/[^|]+/, "---", line); print "|" line "|" }
  }'

awk -F, -v markdown="$markdown" "$cells"'
  function rate(who, at) { return (who, at) in of ? of[who, at] : "-" }
  function times(tree, at, who) { return (tree, at) in of && of[who, at] > 0 ? sprintf("%.2f", of[tree, at] / of[who, at]) : "-" }
  function ratio(at, who) { return times("tree", at, who) }
  function nanos(who, at) { return of[who, at] > 0 ? sprintf("%.0f", 1000000 / of[who, at]) : "-" }
  function rates(at) {
    row(mix[at] "|" threads[at] "|" rate("tree", at) "|" rate("tree-32", at) "|" rate("map", at) "|" rate("ets", at) "|" rate("ets-wc", at) "|" \
      ratio(at, "map") "|" ratio(at, "ets") "|" ratio(at, "ets-wc") "|" times("tree-32", at, "ets-wc") "|" full[at] "|" busy[at])
  }
  function shaped(who, at) { return (who, at) in shape ? shape[who, at] : "-" }
  function shapes(at) {
    row(mix[at] "|" threads[at] "|" rate("tree", at) "|" rate("tree-joins", at) "|" rate("tree-unjoined", at) "|" rate("map", at) "|" rate("ets", at) "|" \
      rate("ets-wc", at) "|" times("tree", at, "tree-unjoined") "|" times("tree-joins", at, "tree-unjoined") "|" ratio(at, "ets-wc") "|" shaped("tree", at) "|" \
      shaped("tree-joins", at) "|" shaped("tree-unjoined", at))
  }
  function costs(name, objects, at) {
    at = name SUBSEP objects SUBSEP 1
    row(name "|" objects "|" nanos("tree", at) "|" nanos("map", at) "|" nanos("ets", at) "|" nanos("ets-wc", at))
  }
  NR == 1 { next }
  { at = $2 SUBSEP $3 SUBSEP $4; of[$1, at] = $5 }
  $1 == "tree" { mix[at] = $2; objects[at] = $3; threads[at] = $4; full[at] = $6; busy[at] = $7 }
  { shape[$1, at] = $8 " " $9 " " $10 }
  $1 == "tree" && $3 == 10000 && ($2 == "moving" || $2 == "waves") { shaping[++shapings] = at; next }
  $1 == "tree" && $3 == 10000 { lines[++count] = at }
  $1 == "tree" && $3 > 40000 { large[++larges] = at }
  END {
    head("10,000 objects, thousand calls a second", "mix|threads|tree|leaf 32|map|ets|ets-wc|tree/map|tree/ets|tree/ets-wc|32/ets-wc|full|busy")
    for (i = 1; i <= count; i++) rates(lines[i])
    print ""
    head("trees that grow and shrink, thousand calls a second; splits, joins and routes at the end", \
      "mix|threads|tree|joins|unjoined|map|ets|ets-wc|/unjoined|joins/un.|tree/ets-wc|of tree|of joins|of unjoined")
    for (i = 1; i <= shapings; i++) shapes(shaping[i])
    print ""
    head("one client, nanoseconds of a call", "mix|objects|tree|map|ets|ets-wc")
    sizes = split("100 400 1000 4000 10000 40000", size, " ")
    for (i = 1; i <= sizes; i++) costs("lookups", size[i])
    for (i = 1; i <= sizes; i++) costs("mixed", size[i])
    print ""
    head("large tables, thousand calls a second", "mix, objects|threads|tree|leaf 32|map|ets|ets-wc|tree/map|tree/ets|tree/ets-wc|32/ets-wc|full|busy")
    for (i = 1; i <= larges; i++) { mix[large[i]] = mix[large[i]] " " objects[large[i]]; rates(large[i]) }
    print ""
  }' "$csv"
awk -F, -v markdown="$markdown" "$cells"'
  NR == 1 { head("puts of new keys until one is refused", "keys|leaf|levels|rows|objects|refused|rows/object|puts k/s|opened ms"); next }
  { row($2 "|" $3 "|" $4 "|" $5 "|" $6 "|" $7 "|" ($7 == "full" ? sprintf("%.3f", $5 / $6) : "-") "|" $8 "|" sprintf("%.1f", $9 / 1000)) }' "$rows"
