#!/usr/bin/env bash
# Compares what the program makes of XML documents with what expat makes of them: whether it reads each,
# and, by the events of a second reading, whether doc("NAME") writes the same content back. The documents
# are those of packages that this machine has, at most 400 of them and 20 MB, and small ones that are made
# here, well-formed and not. Where xmllint is there, it is asked too.
#
#     tools/check-documents.sh            over the program that `rt ci` or ./pathfinder built
#     PATHFINDER=FILE tools/check-documents.sh    over another program
#
# The status is 1 where something differs, else 0. Where a tool is missing, a line says so, and the status is 0.
set -u
top=$(cd "$(dirname "${BASH_SOURCE[0]}")/.." && pwd)
program=${PATHFINDER:-$top/crates/pathfinder_run/out/pathfinder_run}

skip() {
  echo "check-documents: skipped, since $1"
  exit 0
}

command -v python3 >/dev/null 2>&1 || skip "python3 is missing"
python3 -c 'import xml.parsers.expat' >/dev/null 2>&1 || skip "this python3 has no expat"
[ -x "$program" ] || skip "the program is not built (./pathfinder builds it)"
exec python3 -B "$top/tools/check_documents.py" "$program"
