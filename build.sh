# Read by the scripts goclone and install.sh: proves and builds a program of this repository where its sources are not
# those that it was built from.
#   ensure_built CRATE WORDS..    the program of CRATE; WORDS are those that it is tried with, once it is built
# What it has to say goes to standard error. Its callers set `top`, the folder of the repository.
logic=dac8208d650f15bf

say() { printf 'goclone: %s\n' "$*" >&2; }

# Where the built program of a crate is.
program_of() { printf '%s/crates/%s/out/%s\n' "$top" "$1" "$1"; }

# The crate and those below it, lowest first: `crates.txt` names for each what it stands on.
crates_needed() {
    awk -v goal="$1" '
        { sub(/#.*/, "") }
        match($0, /^[a-z0-9_]+/) { crate = substr($0, 1, RLENGTH); sub(/^[^:]*:/, ""); below[crate] = $0 }
        function visit(crate,    deps, n, i) {
            if (!(crate in below) || seen[crate]++) return
            n = split(below[crate], deps, " ")
            for (i = 1; i <= n; i++) visit(deps[i])
            print crate
        }
        END { visit(goal) }
    ' "$top/crates.txt"
}

# A sum of all that the program is made of: names and contents, no times.
sum_of_sources() {
    (cd "$top/crates" && for crate in "$@"; do
        find "$crate" -path '*/out' -prune -o \( -name '*.rt' -o -name '*.antt' \) -type f -print0
    done | LC_ALL=C sort -z | xargs -0 cksum) | cksum
}

# Whether the toolchain is there, with the logic that the proofs are for.
has_toolchain() {
    if ! command -v rt >/dev/null; then
        say "the program isn't built, and rt, the command of the Rattle toolchain, is not on the PATH."
        say "Put the toolchain's folder bin on the PATH and call this again; or take a release archive, whose programs are built."
        return 1
    fi
    case $(rt version 2>/dev/null) in
    *"$logic"*) ;;
    *) say "warning: rt version doesn't name the logic $logic, on which the proofs depend; if the build fails, take a toolchain that does." ;;
    esac
}

build() {
    local name=$1 number=0 started=$SECONDS
    local out=$top/crates/$name/out log=$top/crates/$name/out/build.log
    shift
    has_toolchain || return 1
    if ! { mkdir -p "$out" && : >"$log" && rm -f "$out/built_from"; } 2>/dev/null; then
        say "the program isn't built, and $out can't be written. Make it writable, or call this as the owner of $top."
        return 1
    fi
    say "proving and building the program; from nothing it takes some two processor hours, and can be broken off and called again"
    for crate in "${needed[@]}"; do
        number=$((number + 1))
        say "$crate ($number of ${#needed[@]})"
        if [ "$crate" = "$name" ]; then
            # The toolchain proves, builds and runs a program in one step.
            (cd "$top/crates/$crate" && rt run -- "$@" </dev/null >>"$log" 2>&1)
        else
            (cd "$top/crates/$crate" && rt lib </dev/null >>"$log" 2>&1)
        fi || {
            say "$crate could not be proved or built; the last lines of $log:"
            tail -n 5 "$log" >&2
            say "If the sources are as they were handed out (git status), see that memory (4 GB) and disk (3 GB) were free, and call this again."
            return 1
        }
    done
    printf '%s\n' "$sum" >"$out/built_from" || return 1
    say "built in $((SECONDS - started)) seconds"
}

ensure_built() {
    local needed sum
    if [ ! -r "$top/crates.txt" ]; then
        say "$top/crates.txt is missing: this script builds the program in a whole clone of the repository. Call it there, or by a link to it."
        return 1
    fi
    mapfile -t needed < <(crates_needed "$1")
    if [ "${#needed[@]}" -eq 0 ]; then
        say "$top/crates.txt has no crate $1: take a clone of a commit that has it."
        return 1
    fi
    sum=$(sum_of_sources "${needed[@]}")
    if [ ! -x "$(program_of "$1")" ] || [ "$(cat "$top/crates/$1/out/built_from" 2>/dev/null)" != "$sum" ]; then
        build "$@"
    fi
}
