#!/usr/bin/env bash
# Has the program edit, add and save files in a folder of its own, and looks at the files and at what a second run reads back.
# Usage: tests/saved_folder.sh [PROGRAM]
top=$(cd "$(dirname "${BASH_SOURCE[0]}")/.." && pwd)
program=${1:-$top/goclone}
room=$(mktemp -d) || exit 1
trap 'rm -rf "$room"' EXIT
mkdir "$room/before" "$room/after"
printf 'package main\n\nfunc f(a int) int {\n\tb := a + 1\n\treturn b\n}\n' >"$room/before/a.go"
printf 'package main\n\nfunc f(a int) int {\n\tb := a + 2\n\treturn b\n}\n' >"$room/after/a.go"
printf 'package main\n' >"$room/after/b.go"
{ printf 'show 58\n'; cat "$room/after/a.go"; printf '\nshow 13\n'; cat "$room/after/b.go"; printf '\n'; } >"$room/shown"

printf 'edit a.go 44 45 1\n2\nadd b.go 13\npackage main\n\nsave\n' | "$program" "$room/before" >"$room/said" || exit 1
printf 'ok edit\nok add\nok save 2\n' | cmp - "$room/said" || exit 1
diff -r "$room/after" "$room/before" || exit 1
printf 'show a.go\nshow b.go\n' | "$program" "$room/before" | cmp - "$room/shown" || exit 1
echo "2 files were saved and read back"
