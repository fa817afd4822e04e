#!/usr/bin/env bash
# Takes the Python client out of docs/EDITORS.md, and has it edit, break and mend a package in one session.
# Usage: tests/editor_client.sh [PROGRAM]
top=$(cd "$(dirname "${BASH_SOURCE[0]}")/.." && pwd)
program=${1:-$top/goclone}
room=$(mktemp -d) || exit 1
trap 'rm -rf "$room"' EXIT
mkdir "$room/package"
cp "$top/crates/clone_cli/data/a.go" "$room/package/" || exit 1
awk '/^```python$/ { inside = 1; next } /^```$/ { inside = 0 } inside' "$top/docs/EDITORS.md" >"$room/goclone_client.py"
lines=$(wc -l <"$room/goclone_client.py")
if [ "$lines" -eq 0 ] || [ "$lines" -gt 60 ]; then
    echo "the client in docs/EDITORS.md has $lines lines" >&2
    exit 1
fi
cat >"$room/use.py" <<'PY'
import sys
from goclone_client import Session, offset

text = open(sys.argv[2] + "/a.go", "rb").read()
session = Session(sys.argv[1], sys.argv[2])
first, classes = session.ask("classes")
assert first == "classes 2" and [len(members) for _, members in classes] == [2, 2], first
assert session.ask("show a.go") == ("show %d" % len(text), text)

first, classes, files = session.maximal()
assert first == "maximal 1" and len(classes) == 1 and files == ["a.go covered 6 of 6"], (first, files)

# Two edits of one state of the file, the later place first.
for place in (offset(text, 9, 10), offset(text, 3, 10)):
    assert session.edit("a.go", place, place + 1, b"77") == ("ok edit", None)
assert session.ask("classes")[0] == "classes 2"

# A broken file has a fault, and a mended one its classes again.
brace = text.rindex(b"}") + 2
assert session.edit("a.go", brace, brace + 1, b"")[0] == "ok edit"
assert session.ask("classes")[0].startswith("fault 4 syntax a.go:0-")
assert session.maximal()[0].startswith("fault 4 syntax a.go:0-") and session.maximal()[2] == []
assert session.edit("a.go", brace, brace, b"}")[0] == "ok edit"
assert session.ask("classes")[0] == "classes 2"

# A refusal, and what UTF-16 makes of text above ASCII.
assert session.edit("b.go", 0, 0, b"")[0] == "no edit 1 NoFile"
assert offset("a\n\u00e4\U0001f600b\n".encode(), 1, 3) == 2 + 2 + 4
assert session.close() == 0
print("one session answered 18 commands")
PY
PYTHONPATH=$room python3 "$room/use.py" "$program" "$room/package" || exit 1
