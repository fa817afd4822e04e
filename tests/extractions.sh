#!/usr/bin/env bash
# Takes classes of many packages out into functions with the built program, and asks it about each new package: it has to type-check,
# and where there is a main, runs before and after have to print the same and to end alike. The packages are those of the tables of
# session_vectors, and those of the folders that are given.
# Usage: tests/extractions.sh [--classes N] [--rows N] [PROGRAM [FOLDER ..]]
#   --classes N   the first N classes of each package, 12 without it
#   --rows N      the first N rows of each table, all without it
top=$(cd "$(dirname "${BASH_SOURCE[0]}")/.." && pwd)
classes=12 rows=0
while [[ $1 == --* ]]; do
    case $1 in
    --classes) classes=$2 ;;
    --rows) rows=$2 ;;
    *) echo "extractions.sh: what is $1?" >&2; exit 2 ;;
    esac
    shift 2
done
program=$(readlink -f "${1:-$top/crates/clone_cli/out/clone_cli}")
room=$(mktemp -d) || exit 1
trap 'rm -rf "$room"' EXIT
cat >"$room/extractions.py" <<'PY'
import os, re, subprocess, sys
from collections import Counter

program, room, data, classes, rows = sys.argv[1], sys.argv[2], sys.argv[3], int(sys.argv[4]), int(sys.argv[5])
INPUTS, TURNS = [b"", b"7", b"\x00\xff 12\n"], 3000
counts, wrong = Counter(), []


def bytes_of(text):
    parts = [] if text == "-" else text.split("+")
    return b"".join(bytes.fromhex(it.split("*")[0]) * int((it.split("*") + ["1"])[1]) for it in parts)


def packages():
    """The packages of the tables: the name of the row, the options, and the files."""
    for table, column in (("listings.tsv", 3), ("extracts.tsv", 3), ("runs.tsv", 1), ("runs_go122.tsv", 1)):
        seen = 0
        for line in open(f"{data}/{table}", encoding="utf-8"):
            row = line.rstrip("\n").split("\t")
            if line.startswith("#") or row[column] == "-" or rows and seen >= rows:
                continue
            seen += 1
            options = ["--min", row[1], "--mass", row[2]] if table == "listings.tsv" else ["--mass", "1"]
            files = row[column].split(" ")
            yield f"{table} {row[0]}", options, dict(it.split("=", 1) if "=" in it else (f"f{n}.go", it) for n, it in enumerate(files))
    for folder in sys.argv[6:]:
        yield folder, [], None


def session(options, folder, script):
    return subprocess.run([program, *options, folder], input=script, capture_output=True).stdout


def runs(turns):
    return b"".join(b"run %d %d\n%b\n" % (turns, len(it), it) for it in INPUTS)


def outcomes(text):
    """How each run of some replies ended, with what it printed."""
    found, at = [], 0
    for _ in INPUTS:
        line = text[at : text.index(b"\n", at)]
        at += len(line) + 1
        words = line.split(b" ")
        if words[0] not in (b"ended", b"panicked", b"undecided"):
            return None
        size = int(words[-1])
        found.append((b" ".join(words[:-1]), text[at : at + size]))
        at += size + 1
    return found


def compare(label, options, folder, start, members):
    """Holds the runs of the old package to those of the new one."""
    turns = (members + 1) * (TURNS + 1)
    old, more = (outcomes(session(options, folder, runs(it))) for it in (TURNS, turns))
    new = outcomes(session(options, folder, start + runs(turns)).split(b"\n", 1)[1])
    if old is None or new is None:
        counts["packages without a main"] += 1
        if (old is None) != (new is None):
            wrong.append(f"{label}: one of the packages alone can be run")
        return
    for first, again, behind in zip(old, more, new):
        counts["runs"] += 1
        ends = first[0] != b"undecided"
        if b"undecided" == behind[0]:
            counts["runs that are undecided behind"] += 1
            if not (first[1].startswith(behind[1]) or behind[1].startswith(first[1])):
                wrong.append(f"{label}: prints something else")
        elif ends and first != behind or again != behind and again[0] != b"undecided":
            wrong.append(f"{label}: {first[0]} with {first[1][:40]}, and {behind[0]} with {behind[1][:40]} behind")


for number, (name, options, files) in enumerate(packages()):
    folder = name
    if files is not None:
        folder = f"{room}/{number}"
        os.mkdir(folder)
        for file, text in files.items():
            with open(f"{folder}/{file}", "wb") as it:
                it.write(bytes_of(text))
    listing = session(options, folder, b"classes\n")
    found = re.match(rb"classes (\d+)\n", listing)
    if not found:
        continue
    counts["packages"] += 1
    for k in range(1, min(int(found[1]), classes) + 1):
        counts["tried"] += 1
        start = b"extract %d zzNew all\n" % k
        reply, then = session(options, folder, start + b"stat\n").split(b"\n")[:2]
        label = f"{name}, class {k}"
        if reply.startswith(b"no extract "):
            counts["refused by " + reply.split(b" ")[2].decode()] += 1
            continue
        taken = re.match(rb"ok extract zzNew members (\d+) ", reply)
        if not taken or not then.startswith(b"stat "):
            wrong.append(f"{label}: {reply.decode()}; {then.decode()}")
            continue
        counts["taken out"] += 1
        compare(label, options, folder, start, int(taken[1]))
for what, count in sorted(counts.items()):
    print(f"{what} {count}")
print("\n".join(wrong[:20]) or "each new package type-checks and runs alike")
sys.exit(1 if wrong or not counts["taken out"] else 0)
PY
python3 "$room/extractions.py" "$program" "$room" "$top/crates/session_vectors/data" "$classes" "$rows" "${@:2}"
