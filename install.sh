#!/usr/bin/env bash
# Installs goclone, or makes an archive of it:
#   install.sh PREFIX               builds the program, and puts it, its script and its page under PREFIX
#   install.sh --uninstall PREFIX   takes out what that put there
#   install.sh --archive FILE       builds the program, and writes FILE, a .tar.gz of all that, and FILE.sha256
top=$(cd "$(dirname "$(readlink -f "${BASH_SOURCE[0]}")")" && pwd) || exit 1
. "$top/build.sh" || exit 1

usage() {
    sed -n '2,5s/^# \{0,1\}//p' "${BASH_SOURCE[0]}" >&2
    exit 2
}

# All that is installed, by its place under the prefix.
files='bin/goclone lib/goclone/goclone share/man/man1/goclone.1'

# The script that runs the installed program, wherever the prefix is moved to.
launcher() {
    printf '#!/bin/sh\n'
    printf 'here=$(cd "$(dirname "$(readlink -f "$0")")" && pwd) || exit 127\n'
    printf 'export GLIBC_TUNABLES=glibc.malloc.mmap_threshold=131072:glibc.malloc.tcache_count=0${GLIBC_TUNABLES:+:$GLIBC_TUNABLES}\n'
    printf 'exec "$here/../lib/goclone/goclone" "$@"\n'
}

# Puts everything under a folder.
put() {
    mkdir -p "$1/bin" "$1/lib/goclone" "$1/share/man/man1" || return 1
    install -m 755 "$(program_of clone_cli)" "$1/lib/goclone/goclone" &&
        launcher >"$1/bin/goclone" && chmod 755 "$1/bin/goclone" &&
        install -m 644 "$top/docs/man/goclone.1" "$1/share/man/man1/goclone.1"
}

case ${1-} in
--uninstall)
    [ $# -eq 2 ] && [ -n "$2" ] || usage
    for file in $files; do rm -f "$2/$file" || exit 1; done
    rmdir "$2/lib/goclone" 2>/dev/null
    say "taken out of $2"
    ;;
--archive)
    [ $# -eq 2 ] && [ -n "$2" ] || usage
    ensure_built clone_cli . || exit 1
    room=$(mktemp -d) || exit 1
    trap 'rm -rf "$room"' EXIT
    put "$room/goclone" || { say "the archive could not be put together in $room"; exit 1; }
    tar --sort=name --mtime=@0 --owner=0 --group=0 --numeric-owner -C "$room" -czf "$2" goclone &&
        (cd "$(dirname "$2")" && sha256sum "$(basename "$2")" >"$(basename "$2").sha256") || {
        say "$2 could not be written: take a folder that can be"
        exit 1
    }
    say "wrote $2 and $2.sha256; unpack it anywhere and put its folder goclone/bin on the PATH"
    ;;
'' | -*) usage ;;
*)
    [ $# -eq 1 ] || usage
    ensure_built clone_cli . || exit 1
    put "$1" || { say "$1 can't be written: take another PREFIX, or call this as its owner"; exit 1; }
    say "installed under $1; put $1/bin on the PATH"
    ;;
esac
