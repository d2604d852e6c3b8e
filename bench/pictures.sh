#!/usr/bin/env bash
# Draws pictures of the figures that bench/tree.sh keeps: rates over threads, the cost of a call over the number of objects, and the tree beside the
# others on four threads. It needs gnuplot: of Debian the package gnuplot-nox (apt-get install gnuplot-nox). The pictures are SVG, or PNG for png.
#   bench/pictures.sh [FILE [FOLDER [svg|png]]]
set -eu
csv=${1:-} folder=${2:-} kind=${3:-svg}
[ -z "$csv" ] || csv=$(realpath "$csv")
[ -z "$folder" ] || folder=$(realpath -m "$folder")
cd "$(dirname "${BASH_SOURCE[0]}")/.."
csv=${csv:-bench/tree.csv} folder=${folder:-docs/pictures}
[ -f "$csv" ] || { echo "bench/pictures.sh: no $csv: run bench/tree.sh first" >&2; exit 1; }
command -v gnuplot >/dev/null || { echo "bench/pictures.sh: no gnuplot: apt-get install gnuplot-nox" >&2; exit 1; }
case $kind in
  svg) terminal="svg noenhanced font 'sans-serif,13' background 'white'" ;;
  png) terminal="pngcairo noenhanced font 'sans-serif,10' background 'white'" ;;
  *) echo "bench/pictures.sh: svg or png" >&2; exit 2 ;;
esac
mkdir -p "$folder"
gnuplot -e "csv = '$csv'; folder = '$folder'; kind = '$kind'; terminal = \"$terminal\"" bench/pictures.gp
ls "$folder"/tree-*."$kind"
