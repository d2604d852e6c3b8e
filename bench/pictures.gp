# Draws three pictures; bench/pictures.sh says of what, and gives csv, folder, kind and terminal.
set datafile separator ","
set datafile missing "NaN"
set grid ytics lc rgb "#c8c8c8" lw 1
set border 3 lc rgb "#666666"
set tics nomirror
set key off
set style line 1 lc rgb "#c0392b" lw 3 pt 7 ps 0.7
set style line 2 lc rgb "#2980b9" lw 2 pt 5 ps 0.6
set style line 3 lc rgb "#7f8c8d" lw 2 pt 9 ps 0.7
set style line 4 lc rgb "#27ae60" lw 2 pt 11 ps 0.7
programs = "tree map ets ets-wc"
titles = "'the tree' 'map behind a lock' 'ets' 'ets, write_concurrency'"
mixes = "lookups mixed skewed-lookups skewed-mixed counter counters"
says = "'lookups' 'half lookups, half edits' 'lookups, skewed keys' 'half lookups, half edits, skewed keys' 'one counter' 'four counters'"

is(who, mix) = strcol(1) eq who && strcol(2) eq mix
rate(who, mix, objects) = is(who, mix) && column(3) == objects ? column(5) / 1000.0 : NaN
nanos(who, mix) = is(who, mix) && column(4) == 1 ? 1000000.0 / column(5) : NaN

# Below the parts of a picture, drawn with the first of them: which line is whose.
places = "0.22 0.36 0.55 0.64"
legend = "do for [w = 1:4] { set label w word(titles, w) at screen real(word(places, w)), screen 0.04 left point ls w offset 1, 0 }"

# Rates over threads, a part for each mix.
eval "set terminal ".terminal." size 1080,680"
set output folder."/tree-threads.".kind
set multiplot layout 2,3 title "10,000 objects: million calls a second, all clients together, over the number of threads" margins 0.05,0.98,0.12,0.88 spacing 0.05,0.12
set xrange [0.7:4.3]
set xtics (1, 2, 4)
set yrange [0:*]
@legend
do for [m = 1:6] {
  set title word(says, m)
  if (m == 2) { unset label }
  plot for [w = 1:4] csv using 4:(rate(word(programs, w), word(mixes, m), 10000)) with linespoints ls w
}
unset multiplot

# The cost of a call over the number of objects.
eval "set terminal ".terminal." size 1080,460"
set output folder."/tree-sizes.".kind
set multiplot layout 1,2 title "One client: nanoseconds of a call, over the number of objects" margins 0.06,0.98,0.19,0.82 spacing 0.07,0.1
set logscale x
set xrange [80:50000]
set xtics ("100" 100, "400" 400, "1,000" 1000, "4,000" 4000, "10,000" 10000, "40,000" 40000)
@legend
do for [m = 1:2] {
  set title word(says, m)
  if (m == 2) { unset label }
  plot for [w = 1:4] csv using 3:(nanos(word(programs, w), word(mixes, m))) smooth unique with linespoints ls w
}
unset multiplot

# All beside each other on four threads.
eval "set terminal ".terminal." size 1080,460"
set output folder."/tree-peers.".kind
set title "10,000 objects, 4 threads: million calls a second, all clients together"
unset logscale x
unset label
set xrange [0.5:6.5]
set xtics ("lookups" 1, "half lookups,\nhalf edits" 2, "lookups,\nskewed keys" 3, \
  "half lookups, half edits,\nskewed keys" 4, "one counter" 5, "four counters" 6)
set tmargin 3
set bmargin 6
set lmargin 7
set boxwidth 0.18
set style fill solid 0.9 noborder
set key at screen 0.5, screen 0.05 center horizontal maxrows 1
place(mix) = sum [m = 1:6] (word(mixes, m) eq mix ? m : 0)
at4(who) = strcol(1) eq who && column(3) == 10000 && column(4) == 4 ? column(5) / 1000.0 : NaN
plot for [w = 1:4] csv using (place(strcol(2)) + 0.2 * (w - 2.5)):(at4(word(programs, w))) with boxes \
  lc rgb word("#c0392b #2980b9 #7f8c8d #27ae60", w) title word(titles, w)
