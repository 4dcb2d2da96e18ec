#!/usr/bin/env bash
# Checks the documents against the tree: a README of a crate names each of its definition files and no
# file that isn't there; docs/FEATURES.md names files, definitions and tests that are there.
set -u
cd "$(dirname "$0")/.." || exit 1
faults=0
fault() {
  echo "check-docs: $1"
  faults=$((faults + 1))
}

# Names in backticks that are paths: with a slash, and an ending or one of the folders of a crate.
paths_in() {
  grep -o '`[^` ]*`' "$1" | tr -d '`' | grep -E '^(src|specs|proofs|must-fail|tools|benches|docs|examples|crates|data)/|\.(antt|rt|edit|sh|py|md)$' | grep / | sort -u
}

for folder in crates/*/; do
  crate=$(basename "$folder")
  readme=$folder/README.md
  if [ ! -f "$readme" ]; then
    fault "$crate has no README.md"
    continue
  fi
  for file in "$folder"specs/*.antt; do
    [ -e "$file" ] || continue
    name=$(basename "$file" .antt)
    [ "$name" = Lib ] && continue
    grep -qE "\`(specs/)?$name(\.antt)?\`" "$readme" || fault "$readme doesn't name specs/$name.antt"
  done
  while read -r path; do
    compgen -G "$folder$path" >/dev/null || compgen -G "$path" >/dev/null || compgen -G "$folder$path.antt" >/dev/null ||
      fault "$readme names $path, which isn't there"
  done < <(paths_in "$readme")
done

for page in README.md docs/*.md benches/README.md; do
  [ -e "$page" ] || continue
  while read -r path; do
    compgen -G "$path" >/dev/null || compgen -G "crates/$path" >/dev/null || compgen -G "crates/$path.antt" >/dev/null ||
      fault "$page names $path, which isn't there"
  done < <(paths_in "$page")
done

# Rows of the features: | word | section | file | definition | shown by |, the last as FILE NAME or empty.
if [ -e docs/FEATURES.md ]; then
  while IFS='|' read -r _ word _ file definition shown _; do
    file=$(tr -d ' `' <<<"$file")
    definition=$(tr -d ' `' <<<"$definition")
    read -r shown_file shown_name <<<"$(tr -d '`' <<<"$shown")"
    [ -e "$file" ] || { fault "docs/FEATURES.md names $file for$word"; continue; }
    grep -qwF -- "$definition" "$file" || fault "docs/FEATURES.md names $definition, which isn't in $file"
    [ -n "$shown_file" ] || continue
    [ -e "$shown_file" ] || { fault "docs/FEATURES.md names $shown_file for$word"; continue; }
    grep -qwF -- "$shown_name" "$shown_file" || fault "docs/FEATURES.md names $shown_name, which isn't in $shown_file"
  done < <(grep '^| .*`crates/' docs/FEATURES.md)
fi

if [ "$faults" -gt 0 ]; then
  echo "check-docs: $faults faults"
  exit 1
fi
echo "check-docs: all names are there"
