#!/usr/bin/env bash
# Runs one session over and over, each time with another allocation that fails: the status must be 0 or 8, what is written a front of
# what is due (all of it with 0), and the folder as it was or as the session leaves it. Needs gcc.
# Usage: tests/failing_allocations.sh [PROGRAM]
top=$(cd "$(dirname "${BASH_SOURCE[0]}")/.." && pwd)
program=${1:-$top/goclone}
room=$(mktemp -d) || exit 1
trap 'rm -rf "$room"' EXIT

# Counts the calls of malloc and realloc, and fails the one of the number FAIL_AT.
gcc -shared -fPIC -O1 -o "$room/failing.so" -x c - -ldl <<'C' || exit 1
#define _GNU_SOURCE
#include <dlfcn.h>
#include <errno.h>
#include <fcntl.h>
#include <stdio.h>
#include <stdlib.h>
#include <unistd.h>

static unsigned long calls;

static int fails(void) {
    static unsigned long at;
    const char *number = at ? NULL : getenv("FAIL_AT");
    if (number) at = strtoul(number, NULL, 10);
    return ++calls == at;
}

void *malloc(size_t size) {
    static void *(*real)(size_t);
    if (!real) real = dlsym(RTLD_NEXT, "malloc");
    if (fails()) { errno = ENOMEM; return NULL; }
    return real(size);
}

void *realloc(void *block, size_t size) {
    static void *(*real)(void *, size_t);
    if (!real) real = dlsym(RTLD_NEXT, "realloc");
    if (fails()) { errno = ENOMEM; return NULL; }
    return real(block, size);
}

__attribute__((destructor)) static void tell(void) {
    const char *file = getenv("CALLS_TO");
    int to = file ? open(file, O_WRONLY | O_CREAT | O_TRUNC, 0600) : -1;
    if (to >= 0) { dprintf(to, "%lu\n", calls); close(to); }
}
C

mkdir "$room/before" "$room/after"
printf 'package main\n\nimport "fmt"\n\nfunc f(a int) int {\n\tb := a + 1\n\tb = b * 2\n\treturn b\n}\n\nfunc g(x int) int {\n\ty := x + 5\n\ty = y * 2\n\treturn y\n}\n\nfunc main() {\n\tfmt.Println(f(20), g(20))\n}\n' >"$room/before/a.go"
printf 'classes\nmaximal\nstat\nrun 9 0\n\nedit a.go 58 59 1\n3\nadd b.go 13\npackage main\n\nshow b.go\ndrop b.go\nclasses\nextract 1 addmul all\nrun 9 0\n\nsave\n' >"$room/script"

# Runs the session in a new folder; the status is that of the program.
session() {
    rm -rf "$room/folder" && cp -r "$room/before" "$room/folder"
    LD_PRELOAD=$room/failing.so "$program" "$room/folder" <"$room/script" >"$room/said" 2>/dev/null
}

CALLS_TO=$room/calls session || { echo "the session ends with $?" >&2; exit 1; }
cp "$room/said" "$room/due" && cp "$room/folder/"* "$room/after/" && count=$(cat "$room/calls") || exit 1
short=0
for ((number = 1; number <= count; number++)); do
    FAIL_AT=$number session
    status=$?
    said=$(wc -c <"$room/said")
    if [ "$status" != 0 ] && [ "$status" != 8 ] || ! cmp -s -n "$said" "$room/said" "$room/due" \
        || { [ "$status" = 0 ] && ! cmp -s "$room/said" "$room/due"; } \
        || { ! diff -rq "$room/folder" "$room/before" >/dev/null && ! diff -rq "$room/folder" "$room/after" >/dev/null; }; then
        echo "allocation $number of $count: status $status, $said bytes written" >&2
        exit 1
    fi
    [ "$status" = 8 ] && short=$((short + 1))
done
echo "$count allocations failed one at a time: status 8 $short times, else 0"
