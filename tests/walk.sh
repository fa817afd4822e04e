#!/usr/bin/env bash
# Runs the commands of docs/WALK.md, in their order, in a folder with docs/walk/store.go, and compares what they write with the page.
# With --write the page gets what they write.
# Usage: tests/walk.sh [--write] [PROGRAM]
top=$(cd "$(dirname "${BASH_SOURCE[0]}")/.." && pwd)
write=
if [ "$1" = --write ]; then write=yes; shift; fi
program=$(readlink -f "${1:-$top/goclone}")
room=$(mktemp -d) || exit 1
trap 'rm -rf "$room"' EXIT
mkdir "$room/bin" "$room/store" && ln -s "$program" "$room/bin/goclone" && cp "$top/docs/walk/store.go" "$room/store/" || exit 1
page=$top/docs/WALK.md
fence=
while IFS= read -r line || [ -n "$line" ]; do
    case $fence$line in
    '```console') fence=in; printf '%s\n' "$line" ;;
    'in```') fence=; printf '%s\n' "$line" ;;
    'in$ '*) printf '%s\n' "$line"; (cd "$room" && PATH=$room/bin:$PATH bash -c "${line#\$ }" </dev/null 2>&1) ;;
    in*) ;; # what the page has of an output
    *) printf '%s\n' "$line" ;;
    esac
done <"$page" >"$room/page"
if [ -n "$write" ]; then cp "$room/page" "$page"; exit; fi
diff -u "$page" "$room/page" || { echo "docs/WALK.md doesn't show what the program writes; tests/walk.sh --write mends it" >&2; exit 1; }
echo "docs/WALK.md shows what the program writes"
