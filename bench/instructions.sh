#!/usr/bin/env bash
# How many instructions checks take. A session on each folder is asked for `classes` once under valgrind, for windows of 32 statements
# with a mass of 1000, so that next to nothing is compared. The count doesn't depend on what else the machine does, so two programs
# can be compared by it. Needs valgrind; a check of 1 MiB takes some minutes.
#   bench/instructions.sh PROGRAM FOLDER ..
program=${1:?which program?}
shift
# as `goclone` runs it
export GLIBC_TUNABLES=glibc.malloc.mmap_threshold=131072:glibc.malloc.tcache_count=0
said=$(mktemp) || exit 1
trap 'rm -f "$said"' EXIT
echo '| Folder | Bytes | Instructions, millions | For a byte | Reply |'
echo '|---|---|---|---|---|'
for folder in "$@"; do
    reply=$(valgrind --tool=callgrind --callgrind-out-file=/dev/null --log-file="$said" \
        "$program" --min 32 --mass 1000 "$folder" <<<classes | head -n 1)
    count=$(awk '/Collected :/ { print $NF }' "$said")
    [[ -n $count && -n $reply ]] || { echo "instructions.sh: nothing is counted of $folder" >&2; exit 1; }
    bytes=$(cat "$folder"/*.go | wc -c)
    echo "| $(basename "$folder") | $bytes | $((count / 1000000)) | $((count / bytes)) | $reply |"
done
