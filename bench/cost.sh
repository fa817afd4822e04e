#!/usr/bin/env bash
# What checks and listings cost. It makes packages in a folder of its own, keeps a session open on each, and prints tables of user
# times and of the most memory that the program held:
#   sizes     checks of packages of functions of 16 kB to 1 MiB, and of an edit with the check behind it
#   shapes    checks of packages of one shape, each in three sizes: a body of many statements, a function of many locals, blocks
#             nested as deep as a file may, many functions, and functions that call one another
#   chains    checks of declarations over 256 files, each of which names another one, in two sizes
#   faults    checks of declarations over 256 files with many faults, in two sizes
#   phases    the phases of the check of the largest package of functions. It is given up at the first phase with a fault, and the
#             fault stands at the end of the file; so the times of two packages with faults of adjoining phases differ by a phase
#   listings  listings of clone classes, and of the maximal ones: functions of one statement over and over, and the largest package of functions
# But for the last table, windows of 32 statements with a mass of 1000 are asked for, so that next to nothing is compared.
#   bench/cost.sh [PROGRAM [TABLE ..]]      SIZES="BYTES .." are other sizes of packages of functions
top=$(cd "$(dirname "${BASH_SOURCE[0]}")/.." && pwd) || exit 1
program=${1:-${GOCLONE:-$top/crates/clone_cli/out/clone_cli}}
tables=${*:2}
tables=${tables:-sizes shapes chains faults phases listings}
read -ra sizes <<<"${SIZES:-16384 65536 262144 1048576}"
room=$(mktemp -d) || exit 1
trap 'rm -rf "$room"' EXIT
ticks=$(getconf CLK_TCK)
# as `goclone` runs it
export GLIBC_TUNABLES=glibc.malloc.mmap_threshold=131072:glibc.malloc.tcache_count=0

# ---- measuring

# The user time of a session so far, in milliseconds, and the most memory that it held, in kB.
spent() {
    echo "$(awk -v ticks="$ticks" '{ sub(/^.*\) /, ""); printf "%d", $12 * 1000 / ticks }' "/proc/$1/stat")" \
        "$(awk '/^VmHWM/ { print $2 }' "/proc/$1/status")"
}

# Prints the user time up to the end of the replies to commands on a package, the most memory, and the first line of the replies.
#   cost COMMANDS WORD ..
cost() {
    local commands=$1 process
    shift
    : >"$room/replies"
    mkfifo "$room/script" || return 1
    "$program" "$@" <"$room/script" >"$room/replies" &
    process=$!
    exec 4>"$room/script"
    printf '%s\ndrop none.go\n' "$commands" >&4
    until [ "$(tail -n 1 "$room/replies")" = 'no drop 1 NoFile' ]; do
        kill -0 "$process" 2>/dev/null || { echo 'cost.sh: the session ended' >&2; return 1; }
        sleep 0.02
    done
    echo "$(spent "$process") $(head -n 1 "$room/replies")"
    printf 'quit\n' >&4
    exec 4>&-
    wait "$process"
    rm "$room/script"
}

# The cost of a check whose reply begins with some words.
#   check REPLY FOLDER
check() {
    local time memory reply seen
    seen=$(cost classes --min 32 --mass 1000 "$2") || return 1
    read -r time memory reply <<<"$seen"
    [[ $reply == "$1"* ]] || { echo "cost.sh: the reply is ${reply:-missing}" >&2; return 1; }
    echo "$time $memory"
}

# Puts what a command prints into the file of a package of this name, and tells its folder.
#   package NAME COMMAND WORD ..
package() {
    local folder=$room/$1
    shift
    mkdir "$folder" && "$@" >"$folder/a.go" && echo "$folder"
}

# ---- packages

# Functions with loops, calls and structs, as many as fit into so many bytes.
functions() {
    awk -v bytes="$1" 'BEGIN {
        text = "package main\n\nimport \"fmt\"\n\ntype point struct {\n\tx, y int\n}\n\n"
        for (i = 0; size + length(text) <= bytes; i++) {
            printf "%s", text
            size += length(text)
            text = "func total" i "(ps []point, n int) int {\n\tsum := 0\n\tfor i := 0; i < len(ps); i++ {\n"
            text = text "\t\tsum = sum + ps[i].x*ps[i].y + " (i % 7) "\n\t}\n\tif sum > n {\n\t\tfmt.Println(\"total\", sum)\n\t}\n"
            text = text "\treturn sum + limit" i "\n}\n\nconst limit" i " int = " i "\n\n"
        }
    }'
}

# The same with a text of up to 64 bytes behind.
functions_with() {
    functions $(($1 - 64)) && printf '%b' "$2"
}

# A function of so many equal statements.
statements() {
    awk -v count="$1" 'BEGIN {
        printf "package p\n\nfunc f() {}\n\nfunc g() {\n"
        for (i = 0; i < count; i++) printf "\tf()\n"
        printf "}\n"
    }'
}

# A function of so many locals, each of which is read by the next one.
locals() {
    awk -v count="$1" 'BEGIN {
        printf "package p\n\nfunc g() int {\n\tx0 := 0\n"
        for (i = 1; i < count; i++) printf "\tx%d := x%d\n", i, i - 1
        printf "\treturn x%d\n}\n", count - 1
    }'
}

# So many functions with blocks in one another: 99 pairs of braces, the most that a file may have.
nested() {
    awk -v count="$1" 'BEGIN {
        for (i = 0; i < 99; i++) { open = open "{"; close_all = close_all "}" }
        printf "package p\n\n"
        for (i = 0; i < count; i++) printf "func f%d() %s%s\n\n", i, open, close_all
    }'
}

# So many functions, each of which calls the one before.
callers() {
    awk -v count="$1" 'BEGIN {
        printf "package p\n\nfunc f0() {}\n\n"
        for (i = 1; i < count; i++) printf "func f%d() {\n\tf%d()\n}\n\n", i, i - 1
    }'
}

# So many functions that do nothing.
idle() {
    awk -v count="$1" 'BEGIN {
        printf "package p\n\n"
        for (i = 0; i < count; i++) printf "func f%d() {}\n\n", i
    }'
}

# So many declarations over the 256 files of a new folder, each of which names another one: constants behind the one that they name or
# in front of it, slices or structs of the next type, types and variables that name one another, array types and constants of declared
# types that are their lengths, array variables and constants that are theirs, or wrong values: in front of a faulty constant that all of
# them need, or each in front of one that it needs. There are two declarations or three to a link of the lengths.
#   chain SORT COUNT FOLDER
chain() {
    mkdir "$3" && awk -v sort="$1" -v count="$2" -v folder="$3" '
        function put(place, text) { print text > sprintf("%s/f%03d.go", folder, place % 256) }
        BEGIN {
            for (i = 0; i < 256; i++) put(i, "package main\n")
            put(0, "func main() {}\n")
            last = count - 1
            for (i = 0; i < count && sort != "mixed"; i++) {
                if (sort == "behind") put(i, "const c" i " = " (i ? "c" (i - 1) " + 1" : "1"))
                if (sort == "before") put(i, "const c" i " = " (i < last ? "c" (i + 1) " + 1" : "1"))
                if (sort == "slices") put(i, "type t" i " " (i < last ? "[]t" (i + 1) : "int"))
                if (sort == "structs") put(i, "type t" i " " (i < last ? "struct{ next t" (i + 1) " }" : "int"))
                if (sort == "typed") {
                    put(i, "type n" i " int")
                    put(i + 1, "const c" i " n" i " = " (i ? "n" i "(len(a" (i - 1) "{}))" : "3"))
                    put(i + 2, "type a" i " [c" i "]n" i)
                }
                if (sort == "arrays") {
                    put(i, "const c" i " = " (i ? "len(x" (i - 1) ")" : "3"))
                    put(i + 1, "var x" i " [c" i "]int")
                }
            }
            for (i = 0; i < count && sort == "blocked"; i++) put(i, "var a" i ", b" i " int = \"x\", bad")
            if (sort == "blocked") put(255, "const bad = 1 + \"x\"")
            for (i = 0; i < count && sort == "wrong"; i++) {
                put(i, "const a" i ", b" i " int = \"x\", " (i < last ? "a" (i + 1) : "1"))
            }
            for (i = 0; i < count / 2 && sort == "mixed"; i++) {
                put(i, "type t" i " []t" (i + 1) % (count / 2))
                put(i, "var v" i " = t" i "{}")
            }
        }'
}

# ---- tables

# A row for a package of functions of one size: its check, and an edit of it with the check behind it.
size_row() {
    local folder bytes seen checked held both most reply
    folder=$(package "size$1" functions "$1") || return 1
    bytes=$(wc -c <"$folder/a.go")
    seen=$(check 'classes 0' "$folder") || return 1
    read -r checked held <<<"$seen"
    seen=$(cost $'classes\nedit a.go 13 13 1\n\n\nclasses' --min 32 --mass 1000 "$folder") || return 1
    read -r both most reply <<<"$seen"
    [ "$reply" = 'classes 0' ] || { echo 'cost.sh: the edit is not answered' >&2; return 1; }
    echo "| $bytes | $checked | $held | $((held * 1024 / bytes)) | $((both - checked)) | $most | $((most * 1024 / bytes)) |"
}

table_of_sizes() {
    echo '| Bytes | First check, ms | Memory, kB | For a byte | Edit and check, ms | Memory with both, kB | For a byte |'
    echo '|---|---|---|---|---|---|---|'
    for size in "${sizes[@]}"; do size_row "$size" || return 1; done
}

# Rows for packages of one shape: its text, what makes it, and how many of it.
#   shape_rows TEXT COMMAND COUNT ..
shape_rows() {
    local text=$1 make=$2 count folder seen
    shift 2
    for count in "$@"; do
        folder=$(package "$make$count" "$make" "$count") || return 1
        seen=$(check 'classes 0' "$folder") || return 1
        echo "| $text | $count | $(wc -c <"$folder/a.go") | ${seen% *} | ${seen#* } |"
    done
}

table_of_shapes() {
    echo '| Package | How many | Bytes | Check, ms | Memory, kB |'
    echo '|---|---|---|---|---|'
    shape_rows 'statements in one body' statements 16384 32768 65536 || return 1
    shape_rows 'locals of one function' locals 5000 10000 20000 || return 1
    shape_rows 'functions with 99 blocks in one another' nested 160 320 640 || return 1
    shape_rows 'functions that do nothing' idle 2500 5000 10000 || return 1
    shape_rows 'functions, each calling the one before' callers 2500 5000 10000 || return 1
}

# Rows for declarations that name one another.
#   chain_rows TEXT SORT COUNT ..
chain_rows() {
    local text=$1 sort=$2 count seen
    shift 2
    for count in "$@"; do
        chain "$sort" "$count" "$room/$sort$count" && seen=$(check 'classes 0' "$room/$sort$count") || return 1
        echo "| $text | $count | ${seen% *} | ${seen#* } |"
    done
}

table_of_chains() {
    echo '| Declarations over 256 files | How many | Check, ms | Memory, kB |'
    echo '|---|---|---|---|'
    chain_rows 'constants, each behind the one that it names' behind 1000 10000 || return 1
    chain_rows 'constants, each in front of the one that it names' before 1000 10000 || return 1
    chain_rows 'types, slices of the next one' slices 1000 10000 || return 1
    chain_rows 'types, structs of the next one' structs 1000 10000 || return 1
    chain_rows 'types and variables that name one another' mixed 2500 25000 || return 1
    chain_rows 'array types, each as long as a constant of a declared type' typed 1000 10000 || return 1
    chain_rows 'array variables, each as long as the one before' arrays 1000 10000 || return 1
}

# Rows for declarations with many faults.
#   fault_rows TEXT SORT COUNT ..
fault_rows() {
    local text=$1 sort=$2 count seen
    shift 2
    for count in "$@"; do
        chain "$sort" "$count" "$room/$sort$count" && seen=$(check fault "$room/$sort$count") || return 1
        echo "| $text | $count | ${seen% *} | ${seen#* } |"
    done
}

table_of_faults() {
    echo '| Declarations over 256 files | How many | Check, ms | Memory, kB |'
    echo '|---|---|---|---|'
    fault_rows 'wrong values, which a fault behind all of them blocks' blocked 1000 10000 || return 1
    fault_rows 'wrong values, each of which needs the next one' wrong 1000 10000 || return 1
}

# A row for the phases up to one: the package ends in a text with a fault of this phase.
#   phase_row PHASE REPLY END
before=0
phase_row() {
    local folder seen
    folder=$(package "phase $1" functions_with "${sizes[-1]}" "$3") || return 1
    seen=$(check "$2" "$folder") || return 1
    echo "| $1 | ${seen% *} | $((${seen% *} - before)) | ${seen#* } |"
    before=${seen% *}
}

table_of_phases() {
    echo '| Phase | Check up to its end, ms | Of it this phase, ms | Memory, kB |'
    echo '|---|---|---|---|'
    phase_row 'encoding' 'fault 1 encoding' '// \xff\n' || return 1
    phase_row 'tokens' 'fault 2 lexical' '#\n' || return 1
    phase_row 'trees' 'fault 4 syntax' 'func end() { f( }\n' || return 1
    phase_row 'names' 'fault 7 undeclared' 'func end() { g() }\n' || return 1
    phase_row 'declarations' 'fault 11 assignable' 'var end int = "a"\n' || return 1
    phase_row 'bodies' 'fault 11 assignable' 'func end() int { return "a" }\n' || return 1
    phase_row 'all, and no windows' 'classes 0' '' || return 1
}

# A row of the table of listings: its text, the folder, and the options.
listing_row() {
    local name=$1 folder=$2 seen checked listed memory reply windows shown
    shift 2
    seen=$(check classes "$folder") || return 1
    checked=${seen% *}
    seen=$(cost classes "$@" "$folder") || return 1
    read -r listed memory reply <<<"$seen"
    seen=$(cost maximal "$@" "$folder") || return 1
    read -r shown _ reply <<<"$seen"
    windows=$(printf 'stat\n' | "$program" "$@" "$folder" | awk '{ print $9, $13 }')
    echo "| $name | ${windows% *} | ${windows#* } | $checked | $listed | $shown | $memory |"
}

table_of_listings() {
    echo '| Package | Windows | Classes | Check, ms | Check and listing, ms | Check and maximal classes, ms | Memory, kB |'
    echo '|---|---|---|---|---|---|---|'
    for count in 9202 65536; do
        folder=$(package "equal$count" statements $count) || return 1
        listing_row "$count statements \`f()\`" "$folder" --min 2 --mass 1 || return 1
    done
    folder=$(package listed functions "${sizes[-1]}") || return 1
    listing_row "functions, ${sizes[-1]} bytes" "$folder" || return 1
}

for table in $tables; do
    "table_of_$table" || exit 1
    echo
done
