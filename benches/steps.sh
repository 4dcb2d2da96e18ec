#!/usr/bin/env bash
# Shows that the cost of a step grows linearly: times the step on each axis over documents of growing size, nested
# ones and wide ones, as a table. The documents are made in a folder of their own, which is deleted at the end.
#
#     benches/steps.sh
#     NESTED="8191 65535" WIDE=1000000 AXES="child following" benches/steps.sh    other sizes, other axes
set -u
export LC_ALL=C
top=$(cd "$(dirname "${BASH_SOURCE[0]}")/.." && pwd)
program=$top/crates/step_bench/out/step_bench
nested=${NESTED:-8191 16383 32767 65535}
wide=${WIDE:-125000 250000 500000 1000000}
axes=${AXES:-self child descendant descendant-or-self attribute parent ancestor ancestor-or-self preceding-sibling following-sibling preceding following}

if [ ! -x "$program" ]; then
  (cd "$top/crates/step_bench" && rt run) >/dev/null 2>&1 </dev/null
fi
if [ ! -x "$program" ]; then
  echo "steps: the program was not built; rt run in crates/step_bench tells why" >&2
  exit 70
fi
folder=$(mktemp -d) || exit 1
trap 'rm -rf "$folder"' EXIT
document=$folder/document.xml

# The seconds of a run on these axes; its lines go into a file.
seconds() {
  local start=$EPOCHREALTIME
  "$program" "$@" <"$document" >"$folder/lines" || return 1
  local end=$EPOCHREALTIME
  awk -v start="$start" -v end="$end" 'BEGIN { printf "%.6f", end - start }'
}

# The lines of the table for a document: of a name, with so many rows. An axis is run twice, once with one step and
# once with more; the difference is the cost of the steps without reading the document.
measure() {
  local name=$1 rows=$2 more=$((2000000 / $2 + 1)) axis one many
  for axis in $axes; do
    one=$(seconds "$axis") || exit 1
    # shellcheck disable=SC2046
    many=$(seconds $(yes "$axis" | head -n $((more + 1)))) || exit 1
    head -n 1 "$folder/lines" | awk -v name="$name" -v rows="$rows" -v one="$one" -v many="$many" -v more="$more" '{
      step = (many - one) / more
      work = $9 + 2 * $3 + $11
      printf "%-6s  %8d  %-18s  %9.5f  %8d  %8d  %8.1f\n", name, rows, $1, step, $9, $11, step * 1e9 / work
    }'
  done
}

echo "seconds of one step, without reading the document; ns: nanoseconds per row read, node of the context and hit"
printf '%-6s  %8s  %-18s  %9s  %8s  %8s  %8s\n' document rows axis seconds read hits ns
for elements in $nested; do
  awk -v n="$elements" 'BEGIN { for (i = 0; i < n; i++) printf "<x>"; for (i = 0; i < n; i++) printf "</x>" }' >"$document"
  measure nested $((elements + 1))
done
for rows in $wide; do
  awk -v n="$((rows - 2))" 'BEGIN { printf "<r>"; for (i = 0; i < n; i++) printf "<x/>"; printf "</r>" }' >"$document"
  measure wide "$rows"
done
