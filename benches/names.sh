#!/usr/bin/env bash
# Times the program on queries with many names: lets in one FLWOR, functions in a chain of calls, references to one
# variable. The queries are made by make_names.py in a folder of their own, which is deleted at the end. The column of
# growth is the time of a name over that in the smallest query of its shape, less the time of the query `1`: it stays near
# 1 where the time grows linearly.
#
#     benches/names.sh
#     LETS="1000 4000" FUNCTIONS=2000 REFERENCES=60000 RUNS=1 benches/names.sh    other counts, runs of each
#     PATHFINDER=FILE benches/names.sh    another program than the one that was built last
set -u
export LC_ALL=C
top=$(cd "$(dirname "${BASH_SOURCE[0]}")/.." && pwd)
program=${PATHFINDER:-$top/crates/pathfinder_run/out/pathfinder_run}
runs=${RUNS:-3}

if ! command -v python3 >/dev/null 2>&1; then
  echo "names: skipped, since python3 is missing"
  exit 0
fi
if [ ! -x "$program" ]; then
  echo "names: the program was not built; ./pathfinder run examples/loops.xq builds it" >&2
  exit 70
fi
folder=$(mktemp -d) || exit 1
trap 'rm -rf "$folder"' EXIT
cd "$folder" || exit 1
printf '%s\n' '"$1" run query.xq >answer 2>told; exit 0' >ask.sh

time_one() {
  python3 -B "$top/benches/measure.py" "$runs" sh ask.sh "$program" | awk '{ print $1 }'
}

printf 1 >query.xq
base=$(time_one)
echo "the least seconds of $runs runs; the query 1 takes $base"
printf '%-10s  %7s  %9s  %8s  %7s  %s\n' shape names bytes seconds growth answer
for shape in lets functions references; do
  case $shape in
    lets) counts=${LETS:-1000 2000 4000} ;;
    functions) counts=${FUNCTIONS:-500 1000 2000} ;;
    references) counts=${REFERENCES:-15000 30000 60000} ;;
  esac
  first=
  for count in $counts; do
    python3 -B "$top/benches/make_names.py" "$shape" "$count" query.xq || exit 1
    seconds=$(time_one)
    each=$(awk -v s="$seconds" -v b="$base" -v n="$count" 'BEGIN { printf "%.12g", (s - b) / n }')
    first=${first:-$each}
    growth=$(awk -v e="$each" -v f="$first" 'BEGIN { if (f > 0) printf "%.2f", e / f; else printf "-" }')
    printf '%-10s  %7d  %9d  %8.3f  %7s  %s\n' "$shape" "$count" "$(wc -c <query.xq)" "$seconds" "$growth" "$(cat answer told | head -c 40 | tr -d '\n')"
  done
done
