#!/usr/bin/env bash
# Times the reading of queries of growing size: a sequence of additions, FLWOR expressions side by side, one string,
# nested comments, one level of operators. The queries are made by make_query.py in a folder of their own, which is
# deleted at the end. The column of growth is the time of a byte over that of the smallest query of its shape: it stays
# near 1 where the time grows linearly.
#
#     benches/queries.sh
#     SIZES="100000 1000000" SHAPES="string" RUNS=1 benches/queries.sh    other sizes in bytes, shapes, runs of each
set -u
export LC_ALL=C
top=$(cd "$(dirname "${BASH_SOURCE[0]}")/.." && pwd)
program=$top/crates/query_bench/out/query_bench
sizes=${SIZES:-100000 300000 1000000}
shapes=${SHAPES:-additions flwors string comments operands}
runs=${RUNS:-3}

if ! command -v python3 >/dev/null 2>&1; then
  echo "queries: skipped, since python3 is missing"
  exit 0
fi
if [ ! -x "$program" ]; then
  (cd "$top/crates/query_bench" && rt run) >/dev/null 2>&1 </dev/null
fi
if [ ! -x "$program" ]; then
  echo "queries: the program was not built; rt run in crates/query_bench tells why" >&2
  exit 70
fi
folder=$(mktemp -d) || exit 1
trap 'rm -rf "$folder"' EXIT
cd "$folder" || exit 1
printf '%s\n' 'exec "$1" <query' >read.sh

echo "the least seconds and the greatest peak of $runs runs"
printf '%-10s  %9s  %8s  %8s  %7s  %8s  %s\n' shape bytes seconds MB/s growth "peak MB" reading
for shape in $shapes; do
  first=
  for size in $sizes; do
    python3 -B "$top/benches/make_query.py" "$shape" "$size" query || exit 1
    bytes=$(wc -c <query)
    reading=$("$program" <query 2>&1)
    if figures=$(python3 -B "$top/benches/measure.py" "$runs" sh read.sh "$program"); then
      line=$(awk -v shape="$shape" -v bytes="$bytes" -v figures="$figures" -v first="$first" -v reading="$reading" 'BEGIN {
        split(figures, f, " ")
        byte = f[1] / bytes
        if (first == "") first = byte
        printf "%-10s  %9d  %8.3f  %8.1f  %7.2f  %8.1f  %s %.12g", shape, bytes, f[1], bytes / 1e6 / f[1], byte / first, f[2] / 1e6, reading, first
      }')
      first=${line##* }
      echo "${line% *}"
    else
      printf '%-10s  %9d  failed\n' "$shape" "$bytes"
    fi
  done
done
