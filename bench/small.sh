#!/bin/sh
# Measures what an embedded engineer asks: the bytes of code of a dispatcher on 64-bit ARM, the heap and the stack of each call, which
# calls allocate, and the instructions of each event there, counted in the emulator, with its nanoseconds on x86-64. The tables go to
# standard output, or with `mend` into docs/SMALL-MACHINE.md. c/build.sh must have built the libraries for both machines.
# usage: small.sh [mend]
. "$(dirname -- "$0")/../tools/usage.sh"
takes 0 1 "$@"
case ${1-} in '' | mend) ;; *) wrong_words ;; esac
here=$(cd "$(dirname -- "$0")/.." && pwd) || exit 1
c=$here/c
arm=$c/out/aarch64
cross=aarch64-linux-gnu
for tool in cc "$cross-gcc" "$cross-size" qemu-aarch64-static awk; do
    command -v "$tool" >/dev/null 2>&1 || { echo "small.sh: there is no $tool" >&2; exit 1; }
done
for file in "$c/out/libedfvd_core.a" "$arm/libedfvd_core.a"; do
    [ -e "$file" ] || { echo "small.sh: c/build.sh has not built $file" >&2; exit 1; }
done
work=$(mktemp -d) || exit 1
trap 'rm -rf "$work"' EXIT
trap 'exit 1' HUP INT TERM
tasks='8 128'

# code LIBRARY SOURCE: the bytes of code, constants and data of a program that is linked with a library and without a C library, and those
# of its array for malloc taken off
code() {
    "$cross-gcc" -std=c11 -Os -static -nostdlib -ffreestanding -ffunction-sections -fdata-sections -Wl,--gc-sections -I"$c" "$2" \
        "$c/bench/bare.c" "$1" -lgcc -o "$work/bare" || exit 1
    "$cross-size" -A "$work/bare" | awk '
        $1 == ".text" { text += $2 }
        $1 ~ /^\.(rodata|data|eh_frame)/ || $1 == ".got" { constants += $2 }
        $1 == ".bss" { bss = $2 }
        END { print text, constants, bss - 65536 }'
}

# thousands: the number that comes in, with commas
thousands() {
    sed -e :a -e 's/\B[0-9]\{3\}\>/,&/' -e ta
}

# code_table: of the dispatcher, and of a program that calls nothing but the test
code_table() {
    printf '#include "edfvd.h"\nstatic const edfvd_task tasks[] = {{EDFVD_HIGH, 10, 2, 6}, {EDFVD_LOW, 10, 5, 5}};\n' >"$work/check.c"
    printf 'int main(void) { edfvd_test test; return edfvd_check(tasks, 2, &test) == EDFVD_OK && test.rule == 2 ? 0 : 1; }\n' >>"$work/check.c"
    echo '| program | code | constants | variables |'
    echo '|---|---|---|---|'
    for program in dispatcher check; do
        source=$c/examples/$program.c
        what="\`c/examples/$program.c\`: a scheduler without an end, and a monitor"
        [ "$program" = dispatcher ] || { source=$work/check.c; what='a program that calls `edfvd_check` and nothing else'; }
        of=$(code "$arm/libedfvd_core.a" "$source") || exit 1
        qemu-aarch64-static "$work/bare" || { echo "small.sh: $program does not end with 0 without a C library" >&2; exit 1; }
        # shellcheck disable=SC2086
        printf '| %s | %s | %s | %s |\n' "$what" $of | thousands
    done
}

# needs: writes what the calls need, on both machines and for both numbers of tasks
needs() {
    wrap=-Wl,--wrap=malloc,--wrap=realloc,--wrap=free
    "$cross-gcc" -std=c11 -O2 -static -I"$c" "$c/bench/needs.c" "$arm/libedfvd_core.a" $wrap -o "$work/needs.arm" || exit 1
    cc -std=c11 -O2 -static -I"$c" "$c/bench/needs.c" "$c/out/libedfvd_core.a" $wrap -o "$work/needs.x86" || exit 1
    for number in $tasks; do
        qemu-aarch64-static "$work/needs.arm" "$number" 4000 >"$work/arm.$number" && "$work/needs.x86" "$number" 4000 >"$work/x86.$number" ||
            { echo "small.sh: needs $number failed" >&2; exit 1; }
        # What a call allocates does not depend on the machine.
        cut -d '|' -f 1,2,4-6 "$work/arm.$number" >"$work/one"
        cut -d '|' -f 1,2,4-6 "$work/x86.$number" | cmp - "$work/one" >&2 || exit 1
    done
}

# heap_table: the heap that the calls keep that open something
heap_table() {
    echo '| after | bytes of heap, 8 tasks | allocations | bytes of heap, 128 tasks | allocations |'
    echo '|---|---|---|---|---|'
    awk -F '|' '
        $6 > 0 && $1 ~ /open/ { heap[$1] = heap[$1] " | " $6 " | " $5 }
        $6 > 0 && $1 ~ /open/ && !($1 in seen) { name[++names] = $1; seen[$1] = 1 }
        END { for (n = 1; n <= names; n++) print "| `edfvd_" name[n] heap[name[n]] " |" }
    ' "$work/arm.8" "$work/arm.128" | sed 's/`edfvd_\([a-z_]*\)\( of [^|]*[^| ]\)* |/`edfvd_\1`\2 |/' | thousands
}

# calls_table: stack and allocations of each call
calls_table() {
    echo '| call | stack on ARM, 8 and 128 tasks | on x86-64 | takes memory |'
    echo '|---|---|---|---|'
    awk -F '|' '
        FNR == 1 { file++ }
        { stack[$1, file] = $3; takers[$1, file] = $4; calls[$1, file] = $2; most[$1, file] = $5; if (file == 1) name[++names] = $1 }
        function takes(n, f) {
            if (takers[n, f] == 0) return "no"
            if (calls[n, f] >= 100) return takers[n, f] " of " calls[n, f] " calls"
            return "by " most[n, f] (most[n, f] == 1 ? " allocation" : " allocations")
        }
        END {
            for (n = 1; n <= names; n++) {
                it = name[n]
                says = takes(it, 1) == takes(it, 2) ? takes(it, 1) : takes(it, 1) "; " takes(it, 2)
                print "| `edfvd_" it " | " stack[it, 1] ", " stack[it, 2] " | " stack[it, 3] ", " stack[it, 4] " | " says " |"
            }
        }
    ' "$work/arm.8" "$work/arm.128" "$work/x86.8" "$work/x86.128" | sed 's/`edfvd_\([a-z_]*\)\( of [^|]*[^| ]\)* |/`edfvd_\1`\2 |/' |
        sed -e ':a' -e 's/\([| ]\)\([0-9]\{1,3\}\)\([0-9]\{3\}\)\([, |]\)/\1\2,\3\4/' -e ta
}

# instructions TASKS spread|bursts: of each kind of call the median and the worst number of instructions, from the emulator's log, which
# has a line with the function for each instruction
instructions() {
    qemu-aarch64-static -singlestep -d exec,nochain -D /dev/stdout "$work/steps" "$1" 1500 "$2" | awk '
        / mark_[0-9]/ { split($NF, parts, "_"); kind = parts[2]; steps = 0; next }
        / mark_end$/ { if (kind != "") { counts[kind] = counts[kind] " " steps }; kind = ""; next }
        kind != "" { steps++ }
        END {
            for (kind = 0; kind < 9; kind++) {
                many = split(counts[kind], of, " ")
                split("", seen)
                for (n = 1; n <= many; n++) seen[of[n] + 0]++
                worst = 0
                for (n in seen) if (n + 0 > worst) worst = n + 0
                below = 0
                for (n = 0; n <= worst; n++) { below += seen[n]; if (below * 2 > many) break }
                print n, worst
            }
        }'
}

# events_table: instructions on ARM and nanoseconds on x86-64
events_table() {
    "$cross-gcc" -std=c11 -O2 -static -I"$c" "$c/bench/steps.c" "$arm/libedfvd_core.a" -o "$work/steps" || exit 1
    cc -std=c11 -O2 -static -I"$c" "$c/bench/latency.c" "$c/out/libedfvd_core.a" -o "$work/latency" || exit 1
    for number in $tasks; do
        instructions "$number" spread >"$work/spread" && instructions "$number" bursts >"$work/bursts" || exit 1
        "$work/latency" "$number" 20000 20 >"$work/latency.text" || exit 1
        paste -d ' ' "$work/latency.text" "$work/spread" "$work/bursts" >"$work/events.$number"
    done
    echo '| call | ARM, 8 tasks | ARM, 128 tasks | x86-64, 8 tasks | x86-64, 128 tasks |'
    echo '|---|---|---|---|---|'
    paste -d ' ' "$work/events.8" "$work/events.128" | awk '
        function most(a, b) { return a > b ? a : b }
        { printf "| `edfvd_%s` | %d, %d | %d, %d | %d, %d ns | %d, %d ns |\n", $1, $6, most($7, $9), $15, most($16, $18), $2, most($3, $5),
            $11, most($12, $14) }' |
        sed -e ':a' -e 's/\([| ]\)\([0-9]\{1,3\}\)\([0-9]\{3\}\)\([, |]\)/\1\2,\3\4/' -e ta
}

# figures: all tables
figures() {
    needs
    printf '### Code\n\n'
    code_table
    printf '\n### Heap\n\n'
    heap_table
    printf '\n### Stack, and which calls take memory\n\n'
    calls_table
    printf '\n### Time of an event\n\n'
    events_table
}

figures >"$work/figures" || exit 1
if [ $# -eq 0 ]; then
    cat "$work/figures"
    exit
fi
page=$here/docs/SMALL-MACHINE.md
awk -v figures="$work/figures" '
    /^<!-- end of the figures -->/ { inside = 0 }
    !inside
    /^<!-- the figures of bench\/small.sh -->/ { inside = 1; print ""; while ((getline line < figures) > 0) print line; print "" }
' "$page" >"$work/page" && cat "$work/page" >"$page"
