#!/usr/bin/env bash
# Times operators on tables of a million rows, as a table: nanoseconds a row of their input. Each operator is run
# once and then several times more over the same tables; the difference is its cost without making them.
#
#     benches/tables.sh
#     ROWS="100000 1000000" OPERATORS="join rownum" MORE=2 benches/tables.sh    other sizes, operators, runs of each
set -u
export LC_ALL=C
top=$(cd "$(dirname "${BASH_SOURCE[0]}")/.." && pwd)
program=$top/crates/table_bench/out/table_bench
sizes=${ROWS:-1000000}
operators=${OPERATORS:-project attach select union count map join difference distinct exists_compare rownum rownum_in_order}
more=${MORE:-4}

if [ ! -x "$program" ]; then
  (cd "$top/crates/table_bench" && rt run) >/dev/null 2>&1 </dev/null
fi
if [ ! -x "$program" ]; then
  echo "tables: the program was not built; rt run in crates/table_bench tells why" >&2
  exit 70
fi
folder=$(mktemp -d) || exit 1
trap 'rm -rf "$folder"' EXIT

# The seconds of a run of these operators; its lines go into a file.
seconds() {
  local start=$EPOCHREALTIME
  "$program" "$@" <"$folder/bytes" >"$folder/lines" || return 1
  local end=$EPOCHREALTIME
  awk -v start="$start" -v end="$end" 'BEGIN { printf "%.6f", end - start }'
}

echo "seconds of one run, without making the tables; ns: nanoseconds per row of the input"
printf '%-16s  %9s  %9s  %9s  %8s\n' operator input rows seconds ns
for size in $sizes; do
  head -c "$size" /dev/zero >"$folder/bytes"
  for operator in $operators; do
    one=$(seconds "$operator") || exit 1
    # shellcheck disable=SC2046
    many=$(seconds $(yes "$operator" | head -n $((more + 1)))) || exit 1
    head -n 1 "$folder/lines" | awk -v one="$one" -v many="$many" -v more="$more" '{
      run = (many - one) / more
      printf "%-16s  %9d  %9d  %9.5f  %8.1f\n", $1, $3, $5, run, run * 1e9 / $3
    }'
  done
done
