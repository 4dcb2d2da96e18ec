#!/usr/bin/env bash
# Times the reading and writing of documents, beside xmllint and expat on the same files, as a table, and the reading
# of texts that are chosen to have one hash, beside others. The documents are made by make_auction.py and
# make_colliding.py in a folder of their own, which is deleted at the end.
#
#     benches/documents.sh
#     SIZES="1 10" RUNS=1 benches/documents.sh    other sizes in megabytes; how often each is run, 3 if left out
#     PATHFINDER=FILE benches/documents.sh        another program than the one that was built last
set -u
top=$(cd "$(dirname "${BASH_SOURCE[0]}")/.." && pwd)
program=${PATHFINDER:-$top/crates/pathfinder_run/out/pathfinder_run}
sizes=${SIZES:-1 10 60}
runs=${RUNS:-3}

if ! command -v python3 >/dev/null 2>&1; then
  echo "documents: skipped, since python3 is missing"
  exit 0
fi
python=$(python3 -c "import sys; print(sys.executable)")
folder=$(mktemp -d) || exit 1
trap 'rm -rf "$folder"' EXIT
cd "$folder" || exit 1
printf '1' >one.xq
printf 'doc("auction.xml")' >doc.xq
printf '%s\n' 'import sys' 'from xml.parsers import expat' 'expat.ParserCreate().ParseFile(open(sys.argv[1], "rb"))' >expat.py

# One line of the table: its name, then the command. Megabytes are millions of bytes.
line() {
  local name=$1 figures
  shift
  if figures=$(python3 -B "$top/benches/measure.py" "$runs" "$@"); then
    awk -v name="$name" -v bytes="$bytes" -v rows="$rows" -v figures="$figures" 'BEGIN {
      split(figures, f, " ")
      printf "%8.1f  %9d  %-30s  %8.3f  %8.1f  %9.1f  %11.1f\n", bytes / 1e6, rows, name, f[1], bytes / 1e6 / f[1], f[2] / 1e6, f[2] / rows
    }'
  else
    printf '%8s  %9s  %-30s  failed\n' "" "" "$name"
  fi
}

echo "the least seconds and the greatest peak of $runs runs; bytes a row are the peak over the rows"
printf '%8s  %9s  %-30s  %8s  %8s  %9s  %11s\n' MB rows reader seconds MB/s "peak MB" "bytes a row"
for size in $sizes; do
  rows=$(python3 -B "$top/benches/make_auction.py" "${size}000000" auction.xml) || exit 1
  bytes=$(wc -c <auction.xml)
  if [ -x "$program" ]; then
    line "pathfinder, query 1" "$program" run one.xq auction.xml
    line "pathfinder, doc(\"auction.xml\")" "$program" run doc.xq auction.xml
  else
    echo "pathfinder: skipped, since the program is not built (./pathfinder builds it)"
  fi
  if command -v xmllint >/dev/null 2>&1; then
    line "xmllint --noout" xmllint --noout --huge auction.xml
  else
    echo "xmllint: skipped, since it is missing"
  fi
  if python3 -c 'import xml.parsers.expat' >/dev/null 2>&1; then
    line "expat in python3, no handlers" "$python" expat.py auction.xml
  else
    echo "expat: skipped, since this python3 has none"
  fi
done

# The two lines are to differ by less than a factor of three.
if [ -x "$program" ]; then
  rows=$(python3 -B "$top/benches/make_colliding.py" 4000000 colliding.xml ordinary.xml) || exit 1
  bytes=$(wc -c <colliding.xml)
  line "pathfinder, texts of one hash" "$program" run one.xq colliding.xml
  line "pathfinder, other texts" "$program" run one.xq ordinary.xml
fi
