#!/usr/bin/env bash
# What the gate costs. It watches a run of `rt ci` of the repository in whose top it is called, and prints a table: for each crate
# the processor minutes of its proof, its tests and its wrong bodies, then the longest chain of crates by crates.txt, and what both
# sums are against the proof of go_grammar in the same run. A run of the whole repository that ended and proved something has its
# table put into docs/GATE.md too, in place of the one between the two marks there.
#   bench/gate.sh [WORD ..]           starts `rt ci WORD ..`, watches it, and ends with its status
#   bench/gate.sh --log LOG [PID]     watches the run that is going on and writes LOG, or that of the process PID, as far as it is left
#   bench/gate.sh --table FOLDER      makes the table of an earlier watch again, from what it left in its folder
# What it saw goes into a folder that it names at the start (ROOM=FOLDER is another one): log, what `rt ci` wrote; times, a line for each
# process that ended, of what it was, for which crate and for how long; and facts, of the run as a whole.
# Each process that `rt` started is looked at once a second with all that it started itself. What it took after the last look is told
# by the time that `rt` has from the system of its processes that ended.
ticks=$(getconf CLK_TCK)

# The processes of the machine at this look: their parents, the times that they and what ended below them took, and when they began.
declare -A parent spent begun
# Each process that rt started, by its number and its beginning: of what it is, for which crate, and the time that it took so far.
declare -A kind crate took
# Those that go on at this look.
declare -A going
# The time of rt's processes that ended, at this look and at the one before; of those that go on; and of rt and all that ended.
reaped=0 reaped_before=0 live=0 own=0

# ---- watching

# Reads the times of all processes.
look() {
    local file line fields process
    parent=() spent=() begun=()
    for file in /proc/[0-9]*/stat; do
        { read -r line <"$file"; } 2>/dev/null || continue
        read -ra fields <<<"${line##*) }"
        process=${line%% *}
        parent[$process]=${fields[1]}
        spent[$process]=$((fields[11] + fields[12] + fields[13] + fields[14]))
        begun[$process]=$process.${fields[19]}
        [[ $process == "$rt" ]] && reaped=$((fields[13] + fields[14])) && own=${spent[$process]}
    done
}

# Sets `top` to the process of rt's own that a process is or stands below, or to nothing.
top_of() {
    top=$1
    while [[ -n ${parent[$top]} && ${parent[$top]} != "$rt" ]]; do
        top=${parent[$top]}
    done
    [[ -n ${parent[$top]} ]] || top=
}

# Tells by its words and by the folder that it is in what one of rt's processes is for.
tell() {
    local process=$1 key=$2 words said
    { mapfile -d '' -t words <"/proc/$process/cmdline"; } 2>/dev/null
    said=" ${words[*]} "
    [[ $said =~ " --crate-name "([a-z0-9_]+)" " ]] || return
    crate[$key]=${BASH_REMATCH[1]}
    kind[$key]=proof
    [[ $said == *" --test "* ]] && kind[$key]=tests
    [[ $(readlink "/proc/$process/cwd") == */rt-edit-* ]] && kind[$key]=edits
}

# Adds up what each of rt's processes took so far, with all below it.
add_up() {
    local process key top
    local -A sum=()
    for process in "${!parent[@]}"; do
        top_of "$process"
        [[ -n $top ]] && sum[$top]=$((${sum[$top]:-0} + spent[$process]))
    done
    going=() live=0
    for process in "${!sum[@]}"; do
        key=${begun[$process]}
        going[$key]=1
        live=$((live + sum[$process]))
        [[ -n ${kind[$key]} ]] || tell "$process" "$key"
        ((sum[$process] < ${took[$key]:-0})) || took[$key]=${sum[$process]}
    done
}

# Writes down the processes that ended since the look before, with their shares of the time that none of them was seen to take.
settle() {
    local key seen=0 ended=() share=0
    for key in "${!took[@]}"; do
        [[ -n ${going[$key]} ]] && continue
        ended+=("$key")
        seen=$((seen + took[$key]))
    done
    ((${#ended[@]} > 0)) && share=$(((reaped - reaped_before - seen) / ${#ended[@]}))
    ((share > 0)) || share=0
    for key in "${ended[@]}"; do
        echo "${kind[$key]:-rest} ${crate[$key]:--} $((took[$key] + share))" >>"$room/times"
        unset "took[$key]" "kind[$key]" "crate[$key]"
    done
    reaped_before=$reaped
}

# The processor time that the whole machine was at work.
busy() {
    awk '/^cpu / { print $2 + $3 + $4 + $7 + $8; exit }' /proc/stat
}

# Watches rt until it ends.
watch() {
    local first start=$SECONDS at_first
    kit=$(rt version 2>/dev/null | head -1)
    at_first=$(busy)
    look
    first=${begun[$rt]} reaped_before=$reaped at_start=$own
    while [[ -n $first && ${begun[$rt]} == "$first" ]]; do
        add_up
        settle
        facts $((SECONDS - start)) $(($(busy) - at_first))
        sleep 1
        look
    done
    going=()
    settle
}

# Writes down what is known of the run as a whole: seconds by the clock, rt's processor time, and that of the machine.
facts() {
    printf '%s\n' "date $(date +%F)" "processors $(nproc)" "kit $kit" \
        "seconds $1" "rt $((own - at_start + live))" "machine $2" "words ${words[*]}" >"$room/facts"
}

# ---- the table

# The names of the crates with wrong bodies, each with their number, and of those with tests.
counts() {
    local folder
    for folder in crates/*/; do
        set -- "$folder"must-fail/*.edit
        [[ -e $1 ]] && echo "edits $(basename "$folder") $#"
        grep -qs '#\[test\]' "$folder"src/*.rt && echo "has_tests $(basename "$folder")"
    done
}

# Prints the table of what was seen. The dearest crates have rows of their own, and the others stand in one with their sums.
table() {
    counts | awk -v ticks="$ticks" -v rows=45 '
        function minutes(n) { return n > 0 ? sprintf("%.1f", n / ticks / 60) : "" }
        function names(list,   n, parts, i, text) {
            n = split(list, parts, " ")
            for (i = 1; i <= n; i++) text = text (i > 1 ? ", " : "") "`" parts[i] "`"
            return text
        }
        # The time of the longest chain of proofs that ends with a crate, and the crates before it.
        function chain(name,   n, parts, i, best, before) {
            if (name in length_of) return length_of[name]
            length_of[name] = 0
            n = split(below[name], parts, " ")
            for (i = 1; i <= n; i++) if (parts[i] in below && chain(parts[i]) > best) { best = chain(parts[i]); before = parts[i] }
            way[name] = (before == "" ? "" : way[before] " ") name
            return length_of[name] = best + proof[name]
        }
        function row(name, p, t, e, number) {
            return "| " name " | " minutes(p) " | " minutes(t) " | " minutes(e) (number ? " (" number ")" : "") " | " minutes(p + t + e) " |"
        }
        part == "counts" { if ($1 == "edits") of[$2] = $3; else has_tests[$2] = 1; next }
        part == "facts" { word = $1; sub(/^[a-z]+ ?/, ""); fact[word] = $0; next }
        part == "times" { if ($1 == "proof") proof[$2] += $3; else if ($1 == "tests") tests[$2] += $3; else if ($1 == "edits") edits[$2] += $3; next }
        part == "log" { if ($0 ~ /^[0-9]+ passed, [0-9]+ failed/) last = $0; next }
        /^[a-z]/ { name = $1; sub(/:$/, "", name); order[++count] = name; text = $0; sub(/^[^:]*:/, "", text); below[name] = text }
        END {
            printf "%s, %d processors, %s: %d minutes by the clock, in which other programs of the machine took %.0f processor minutes.", fact["date"], fact["processors"], fact["kit"], fact["seconds"] / 60, (fact["machine"] - fact["rt"]) / ticks / 60
            print (last == "" ? " The run had not ended." : " It ended with \"" last "\".") "\n"
            print "| Crate | Proof | Tests | Wrong bodies (number) | Sum |\n|---|---|---|---|---|"
            for (i = 1; i <= count; i++) {
                name = order[i]
                sum = proof[name] + tests[name] + edits[name]
                dearer = 0
                for (j = 1; j <= count; j++) dearer += proof[order[j]] + tests[order[j]] + edits[order[j]] > sum
                p += proof[name]; t += tests[name]; e += edits[name]; number += of[name]
                if (!proof[name]) lacking = lacking " " name; else proved = proved " " name
                if (tests[name] == 0 && name in has_tests && proof[name]) untested = untested " " name
                if (edits[name] == 0 && of[name] > 0 && proof[name]) untried = untried " " name
                if (sum > 0 && dearer < rows) print row("`" name "`", proof[name], tests[name], edits[name], of[name])
                else if (sum > 0) { smalls = smalls (smalls == "" ? "" : ", ") "`" name "` " minutes(sum); sp += proof[name]; st += tests[name]; se += edits[name]; sn += of[name] }
                if (chain(name) > longest) { longest = chain(name); ends = name }
            }
            if (smalls != "") print row(smalls, sp, st, se, sn)
            rest = fact["rt"] - p - t - e
            print "| `rt` itself, links, runs of tests and programs |  |  |  | " minutes(rest) " |"
            print "| All | " minutes(p) " | " minutes(t) " | " minutes(e) " (" number + 0 ") | " minutes(p + t + e + (rest > 0 ? rest : 0)) " |\n"
            if (longest) print "The longest chain by its proofs is " names(way[ends]) ": " minutes(longest) " processor minutes."
            if (proof["go_grammar"]) printf "The proof of `go_grammar` took %s. All takes %.1f times as much, and the longest chain %.1f times.\n", minutes(proof["go_grammar"]), fact["rt"] / proof["go_grammar"], longest / proof["go_grammar"]
            n = split(lacking, parts, " ")
            if (n > 0) print "\nNot proved while it was watched: " (proved == "" ? "any crate" : 2 * n > count ? "all crates but " names(proved) : names(lacking)) "."
            if (untested != "") print "\nTests that were kept, or not come to: those of " names(untested) "."
            if (untried != "") print "\nWrong bodies that were kept, or not come to: those of " names(untried) "."
        }
    ' part=counts - part=facts "$room/facts" part=times "$room/times" part=log "$room/log" part=crates crates.txt
}

# Puts the table into docs/GATE.md, between its marks.
put() {
    awk -v table="$room/table" '
        /^<!-- end of the table -->/ { within = 0 }
        !within { print }
        /^<!-- the table of bench\/gate.sh -->/ { within = 1; while ((getline line < table) > 0) print line }
    ' docs/GATE.md >"$room/GATE.md" && cat "$room/GATE.md" >docs/GATE.md
}

# ---- the run

# The process of `rt ci` that writes to a file.
writer_of() {
    local file=$1 process
    for process in /proc/[0-9]*; do
        [[ $(readlink "$process/fd/1" 2>/dev/null) == "$file" ]] || continue
        tr '\0' ' ' <"$process/cmdline" | grep -q '/rt ci' && echo "${process#/proc/}"
    done | head -1
}

[[ -f crates.txt ]] || { echo "gate.sh: call it at the top of the repository, where crates.txt stands" >&2 && exit 2; }
if [[ $1 == --table ]]; then
    room=${2:?which folder?}
    table
    exit
fi
room=${ROOM:-$(mktemp -d)} && mkdir -p "$room" || exit 2
: >"$room/times"
echo "gate.sh: what it sees goes to $room" >&2
status=0
if [[ $1 == --log ]]; then
    log=$(readlink -f "${2:?which log?}") words=()
    rt=${3:-$(writer_of "$log")}
    [[ -d /proc/$rt && -n $rt ]] || { echo "gate.sh: no run of rt ci writes $log" >&2 && exit 2; }
    ln -sf "$log" "$room/log"
    watch
else
    words=("$@")
    rt ci "$@" >"$room/log" 2>&1 &
    rt=$!
    trap 'kill "$rt"' INT TERM
    watch
    wait "$rt"
    status=$?
fi
table | tee "$room/table"
if [[ ${words[*]} != *[a-z]* || ${words[*]} == --anew ]] && grep -q '^proof ' "$room/times" && grep -qE '^[0-9]+ passed, [0-9]+ failed$' "$room/log"; then
    put
fi
exit "$status"
