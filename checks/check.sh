#!/bin/sh
# Runs the program on the examples and on files at the limits, and the page for callers beside the code that it quotes,
# and compares each status and text with what is written here or beside the example. In it are
# - the verdict vectors in both versions, each error at the top level of a file, and which of two errors comes first;
# - traces of a hundred million ticks and of two million records, half a million pending jobs at a time, demand files with each error, of
#   128 tasks at the greatest length and with a counterexample of 500,000 ticks; an absent file and a folder;
# - traces of recordings of real threads and the run that they should follow; sets with a scale that holds or does not, under each command,
#   and a certified one kept while its set grows;
# - 1 to 16 processors, with empty ones, of 128 tasks, out of range together; `runall` beside `run` of each processor's tasks; stretches
#   at 0, 99, 1000 and with capped budgets; tables of random sets, split and on one processor; a hundred live runs, each text judged;
# - 134,217,728 commas as a trace and 16,777,216 as a work or demand file, with and without a good header, quotes and line feeds between
#   them, refused with their message in 200 and in 64 MiB; a task file of 16 MiB that describes a set, answered in 32 MiB, one of 32,000
#   tables, refused in 64 MiB, and one of 8,160,000, which gets status 9 there.
# usage: check.sh
. "$(dirname -- "$0")/../tools/usage.sh"
takes 0 0 "$@"
cd "$(dirname -- "$0")/../examples" || exit 1
. ../checks/expect.sh
# By the words that a user writes.
itself=$program
program=$edfvd

# The program's stored run is that of the overrun.
for file in tasks.toml work.csv; do
    cmp "overrun/$file" "../crates/edfvd_program/data/$file" || failed=$((failed + 1))
done
cmp overrun/run.txt ../crates/edfvd_program/stdout || failed=$((failed + 1))
# So is the trace that is made of one with a record for each row.
cmp overrun/run.txt runs/runs.csv || failed=$((failed + 1))

expect 0 control/check.txt check control/tasks.toml
(cd control && "$edfvd" check tasks.toml) >"$work/out"
judge 0 $? control/check.txt 'check, from another folder'
# A file that is standard input.
"$program" check /dev/stdin <control/tasks.toml >"$work/out"
judge 0 $? control/check.txt 'check, of standard input'
while read -r status name; do
    expect "$status" "refused/$name.txt" check "refused/$name.toml"
done <refused/statuses.txt
# Each file has its line.
set -- refused/*.toml
[ $# -eq "$(wc -l <refused/statuses.txt)" ] || failed=$((failed + 1))

expect 0 overrun/run.txt run overrun/tasks.toml overrun/work.csv 12
expect 0 overrun/run.txt run overrun/tasks.toml overrun/work.csv 00000000000000000012

expect 0 judged/legal.txt judge judged/tasks.toml judged/legal.csv
expect 6 judged/illegal.txt judge judged/tasks.toml judged/illegal.csv
expect 6 judged/late.txt judge judged/tasks.toml judged/late.csv 1 1
expect 6 "$(says 'illegal row 3 not_least')" judge judged/tasks.toml judged/late.csv
expect 0 judged/legal.txt judge overrun/tasks.toml overrun/run.txt
expect 0 overrun/chart.txt chart overrun/tasks.toml overrun/run.txt
expect 0 overrun/report.txt report overrun/tasks.toml overrun/run.txt
expect 6 judged/illegal.txt chart judged/tasks.toml judged/illegal.csv
expect 6 judged/illegal.txt report judged/tasks.toml judged/illegal.csv

# Recordings of real threads that follow this work: by the rules, and with one broken.
expect 0 record/rules.csv run record/tasks.toml record/work.csv 40
expect 0 judged/legal.txt judge record/tasks.toml record/rules.csv
expect 0 record/greedy.csv run record/tasks.toml record/greedy_work.csv 40
expect 0 judged/legal.txt judge record/tasks.toml record/greedy.csv
for name in plain keep stolen; do
    expect 6 "$(says "$(head -n 1 "record/$name.judged")")" judge record/tasks.toml "record/$name.csv"
done

expect 0 runs/runs.csv migrate runs/tasks.toml runs/rows.csv
expect 0 runs/runs.csv migrate runs/tasks.toml runs/runs.csv
expect 6 judged/illegal.txt migrate judged/tasks.toml judged/illegal.csv
expect 0 judged/legal.txt judge runs/tasks.toml runs/rows.csv
expect 0 overrun/chart.txt chart runs/tasks.toml runs/rows.csv
expect 0 overrun/report.txt report runs/tasks.toml runs/rows.csv
expect 0 judged/legal.txt judge runs/tasks.toml runs/long.csv
expect 0 runs/long.txt report runs/tasks.toml runs/long.csv
expect 0 runs/long.csv migrate runs/tasks.toml runs/long.csv
expect 5 "$(says 'trace has 100000000 ticks, a chart has at most 2000000')" chart runs/tasks.toml runs/long.csv

expect 0 live/first.txt live live/tasks.toml 10
expect 0 live/one.txt live live/one.toml 3

for file in demand/within demand/book demand/later; do
    expect 0 $file.txt demand $file.csv
done
for file in demand/past demand/sensor; do
    expect 10 $file.txt demand $file.csv
done
expect 11 demand/refused.txt demand demand/refused.csv

expect 1 several/check.txt check several/tasks.toml
expect 0 several/two.txt partition several/tasks.toml 2
expect 12 several/one.txt partition several/tasks.toml 1
{ cat several/two.txt; awk 'BEGIN { for (n = 3; n <= 16; n++) print "processor " n }'; } >"$work/sixteen.txt"
expect 0 "$work/sixteen.txt" partition several/tasks.toml 0016
expect 0 several/runall.txt runall several/tasks.toml several/work.csv 5 2
expect 0 several/runall.txt runall several/tasks.toml several/work.csv 5 16

# A certified scale that is kept while the set grows: it holds, holds still, and does not hold any more.
expect 0 certified/check.txt check certified/tasks.toml
expect 0 certified/grown.txt check certified/grown.toml
expect 0 certified/outgrown.txt check certified/outgrown.toml
expect 0 certified/run.txt run certified/tasks.toml certified/work.csv 16
expect 0 certified/run.txt run certified/grown.toml certified/work.csv 16
expect 0 judged/legal.txt judge certified/tasks.toml certified/run.txt
expect 0 judged/legal.txt judge certified/grown.toml certified/run.txt
expect 6 "$(says 'illegal row 4 not_least')" judge certified/outgrown.toml certified/run.txt
expect 6 "$(says 'illegal row 17 not_least')" judge certified/tasks.toml certified/run.txt 1 4

expect 0 control/stretch.txt stretch control/tasks.toml
expect 0 "$(says 'stretch none
U_HH 1/4 at 0')" stretch refused/low_load.toml
expect 0 "$(says 'stretch 99
U_HH 3/4 at 99
U_HH 1/1 at 100')" stretch refused/high_load.toml

expect 0 avionics/check.txt check avionics/tasks.toml
"$edfvd" run avionics/tasks.toml avionics/work.csv 20000 >"$work/avionics.csv"
status=$?
wc -l <"$work/avionics.csv" | tr -d ' ' >"$work/out"
judge 0 "$status" "$(says 40)" 'run, the avionics set'
expect 0 judged/legal.txt judge avionics/tasks.toml "$work/avionics.csv"
expect 0 avionics/report.txt report avionics/tasks.toml "$work/avionics.csv"

# Scripts that write files for the program, and one that draws a trace.
# writes STATUS TEXT SCRIPT WORDS..: the script gives this status and text
writes() {
    want=$1
    text=$2
    shift 2
    bounded env PYTHONPATH=../tools python3 -B "$@" >"$work/out" 2>"$work/err"
    judge "$want" $? "$text" "by $*"
}
# draws COUNT CLASS: the picture has COUNT of these, the one of its legend among them
draws() {
    grep -c "class=\"$2\"" "$work/picture.svg" >"$work/out"
    judge 0 0 "$(says "$1")" "by svg.py, of $2"
}
try_scripts() {
    # Each divisor of the number that divisors.py goes by is a product of powers of these primes. What a period up to a million
    # loses is counted without that, by a division for each.
    cat >"$work/loss.py" <<'END'
import divisors
dense = 897612484786617600
print(dense == 2**8 * 3**4 * 5**2 * 7**2 * 11 * 13 * 17 * 19 * 23 * 29 * 31 * 37 == divisors.DENSE, dense < 2**60)
print(9 * 5 * 3 * 3 * 2**8 == len(divisors.divisors(dense)) == 103680)
for number in dense, 720720, 10000:
    last, lost, worst = 1, 0, 1
    for period in range(1, 1000001):
        last = period if number % period == 0 else last
        assert period > 40 or number < dense or last == period
        if period >= 10000 and (period - last) * worst > lost * period:
            lost, worst = period - last, period
    print(f'{100 * lost / worst:.2f} % at {worst}, to {worst - lost}')
END
    cat >"$work/divisors.txt" <<'END'
True True
True
0.52 % at 12739, to 12673
50.00 % at 720719, to 360360
99.00 % at 1000000, to 10000
END
    writes 0 "$work/divisors.txt" - <"$work/loss.py"
    # 12,673 is 19 * 23 * 29, and 41 a prime that does not divide the number.
    table='[[task]]\nname = "%s"\nlevel = "low"\nperiod = %s\nlow = 1\n'
    # shellcheck disable=SC2059
    printf "version = 2\nscale = [1, 2]\n\n$table\n$table\n$table" a 12739 b 41 c 720720 >"$work/odd.toml"
    sed 's/12739/12673/; s/41/40/' "$work/odd.toml" >"$work/even.toml"
    writes 0 "$work/even.toml" ../tools/divisors.py "$work/odd.toml"
    printf 'a: period 12739 is now 12673, 0.52 %% less\nb: period 41 is now 40, 2.44 %% less\n' >"$work/lost.txt"
    echo 'c: period 720720 is now 720720, 0.00 % less' >>"$work/lost.txt"
    cmp "$work/lost.txt" "$work/err" || failed=$((failed + 1))
    sed 's/12739/10000/; s/41/40/; s/720720/10000/' "$work/odd.toml" >"$work/even.toml"
    writes 0 "$work/even.toml" ../tools/divisors.py "$work/odd.toml" 10000
    # Two tasks of period 4,294,615,752 with a budget of 1.
    python3 -B ../tools/divisors.py refused/periods.toml >"$work/even.toml" 2>"$work/err"
    printf 'tasks 2\nU_LL 1/2147307876\nU_HL 0/1\nU_HH 0/1\nrule plain\n' >"$work/even.txt"
    expect 0 "$work/even.txt" check "$work/even.toml"
    writes 3 "$work/empty" ../tools/divisors.py refused/zero_period.toml
    writes 1 "$work/empty" ../tools/divisors.py "$work/odd.toml" 1009

    # Of budgets of 1 each need is known: the second job of arm overruns, and tap's releases at 6 and 8 are dropped.
    head -n 13 several/tasks.toml >"$work/two.toml"
    printf '%s\n' task,release,need tap,0,1 arm,0,1 tap,2,1 tap,4,1 arm,4,3 tap,6,1 tap,8,1 arm,8,1 >"$work/jobs.csv"
    writes 0 "$work/jobs.csv" ../tools/jobs.py "$work/two.toml" 9 --overruns 2
    bounded "$program" run "$work/two.toml" "$work/jobs.csv" 9 >"$work/trace.csv"
    cat >"$work/report.txt" <<'END'
task tap released 5 kept 3 dropped 2 discarded 0 done 3 stopped 0 ticks 3 response 1
task arm released 3 kept 3 dropped 0 discarded 0 done 3 stopped 0 ticks 5 response 4
idle 1
switches 1
END
    expect 0 "$work/report.txt" report "$work/two.toml" "$work/trace.csv"
    # A seed makes the same work again, another seed other work, in which without overruns no need is above the low budget.
    python3 -B ../tools/jobs.py avionics/tasks.toml 200000 --overruns 0 >"$work/jobs.csv"
    writes 0 "$work/jobs.csv" ../tools/jobs.py avionics/tasks.toml 200000 --overruns 0 --seed 1
    python3 -B ../tools/jobs.py avionics/tasks.toml 200000 --overruns 0 --seed 2 | cmp -s - "$work/jobs.csv" && failed=$((failed + 1))
    bounded "$program" run avionics/tasks.toml "$work/jobs.csv" 200000 >"$work/trace.csv"
    bounded "$program" report avionics/tasks.toml "$work/trace.csv" | tail -n 1 >"$work/out"
    judge 0 0 "$(says 'switches 0')" 'report, of work without overruns'
    python3 -B ../tools/jobs.py avionics/tasks.toml 1000000 >"$work/jobs.csv"
    bounded "$program" run avionics/tasks.toml "$work/jobs.csv" 1000000 >"$work/trace.csv"
    expect 0 judged/legal.txt judge avionics/tasks.toml "$work/trace.csv"

    # Processor 1 of runall.txt: four releases, two of them dropped, two deadlines, and high mode from boundary 2 to 5.
    sed -n '2,/^processor 2/p' several/runall.txt | sed '$d' >"$work/trace.csv"
    python3 -B ../tools/svg.py several/tasks.toml "$work/trace.csv" 0 6 >"$work/picture.svg" || failed=$((failed + 1))
    draws 5 release
    draws 3 dropped
    draws 3 deadline
    draws 2 low
    draws 2 over
    draws 3 high
    draws 3 'done'
    draws 1 stop
    draws 0 discarded
    grep -q '<title>high mode, ticks 2 to 4</title>' "$work/picture.svg" || failed=$((failed + 1))
    python3 -B ../tools/svg.py several/tasks.toml "$work/trace.csv" 2 4 >"$work/picture.svg" || failed=$((failed + 1))
    draws 1 low
    draws 3 high
    python3 -c 'import sys, xml.dom.minidom; xml.dom.minidom.parse(sys.argv[1])' "$work/picture.svg" || failed=$((failed + 1))
    # Of the overrun: log's first job is discarded at boundary 2.
    python3 -B ../tools/svg.py overrun/tasks.toml overrun/run.txt 0 12 >"$work/picture.svg" || failed=$((failed + 1))
    draws 1 discarded
    grep -q '<title>log 1, discarded at 2</title>' "$work/picture.svg" || failed=$((failed + 1))
    writes 5 "$work/empty" ../tools/svg.py overrun/tasks.toml overrun/work.csv 0 12
    writes 2 "$work/empty" ../tools/svg.py overrun/tasks.toml overrun/run.txt 12 12
}
if python3 -c 'import tomllib' 2>/dev/null; then
    try_scripts
else
    echo 'check: divisors.py, jobs.py and svg.py are skipped, there is no python3 of version 3.11 or later'
fi

# A workload, as another program worked it out from the rules.
cat >"$work/soak.txt" <<'END'
soak 1 16 20000
rule virtual x 1727/10064
released 432 kept 430 dropped 2 discarded 0 done 430 stopped 0
ticks 6410 idle 13590 switches 5
legal late 0
END
expect 0 "$work/soak.txt" soak 1 16 20000

# A hundred times over, with 2 threads and with 32, and with two executives at once: the bytes are the same.
cat >"$work/soak.txt" <<'END'
soak 18446744073709551615 32 20000
rule virtual x 3160/10067
released 609 kept 602 dropped 7 discarded 10 done 592 stopped 0
ticks 6078 idle 13922 switches 5
legal late 0
END
times=0
while [ "$times" -lt 100 ]; do
    expect 0 overrun/run.txt run overrun/tasks.toml overrun/work.csv 12
    expect 0 "$work/soak.txt" soak 18446744073709551615 32 20000
    expect 0 several/runall.txt runall several/tasks.toml several/work.csv 5 2
    times=$((times + 1))
done

# lives TASKS TICKS: the text of a live run, whichever it is, is judged legal with no job late
lives() {
    bounded "$program" live "$1" "$2" >"$work/live.csv"
    status=$?
    : >"$work/out"
    judge 0 "$status" "$work/empty" "live $1 $2"
    expect 0 judged/legal.txt judge "$1" "$work/live.csv"
}

# A hundred live runs of 2, of 8 and of 32 tasks.
awk 'BEGIN { for (i = 1; i <= 32; i++) { high = i % 2
    printf "[[task]]\nname = \"t%d\"\nlevel = \"%s\"\nperiod = 100\nlow = %d\n", i, high ? "high" : "low", high ? 1 : 3
    if (high) print "high = 4" } }' >"$work/many.toml"
times=0
while [ "$times" -lt 100 ]; do
    lives live/tasks.toml 1000
    lives avionics/tasks.toml 20000
    lives "$work/many.toml" 1000
    times=$((times + 1))
done
lives live/tasks.toml 100000

# Words that are none of the forms. The usage line is written out in the definition that the program's contract cites.
usage=$(sed -n 's/^usage_line = codes "\(.*\)\\n"$/\1/p' ../crates/command_line/specs/Form.antt)
expect 2 "$(says "$usage")"
expect 2 "$(says "$usage")" check
expect 2 "$(says "$usage")" check control/tasks.toml again
# The wrapper answers these two words; the program has neither.
program=$itself
expect 2 "$(says "$usage")" --help
expect 2 "$(says "$usage")" --version
program=$edfvd
# The first five words are a command, and one or two words too many.
expect 2 "$(says "$usage")" judge judged/tasks.toml judged/legal.csv 1 1 1
expect 2 "$(says "$usage")" judge judged/tasks.toml judged/legal.csv 1 1 1 1
expect 2 "$(says "$usage")" Check control/tasks.toml
expect 2 "$(says "$usage")" check "$(printf '\377')"
for ticks in '' 0 -1 +1 1.0 1000001 18446744073709551617 000000000000000000012; do
    expect 2 "$(says "$usage")" run overrun/tasks.toml overrun/work.csv "$ticks"
done
for ticks in '' 0 -1 100001; do
    expect 2 "$(says "$usage")" live live/tasks.toml "$ticks"
done
expect 2 "$(says "$usage")" live live/tasks.toml
expect 2 "$(says "$usage")" live live/tasks.toml 10 10
expect 2 "$(says "$usage")" demand
expect 2 "$(says "$usage")" demand demand/within.csv 12
expect 2 "$(says "$usage")" Demand demand/within.csv
expect 2 "$(says "$usage")" demands demand/within.csv
for processors in '' 0 17 -1 1.0 18446744073709551617; do
    expect 2 "$(says "$usage")" partition several/tasks.toml "$processors"
    expect 2 "$(says "$usage")" runall several/tasks.toml several/work.csv 5 "$processors"
done
for ticks in '' 0 1000001; do
    expect 2 "$(says "$usage")" runall several/tasks.toml several/work.csv "$ticks" 2
done
expect 2 "$(says "$usage")" partition several/tasks.toml
expect 2 "$(says "$usage")" partition several/tasks.toml 2 2
expect 2 "$(says "$usage")" Partition several/tasks.toml 2
expect 2 "$(says "$usage")" runall several/tasks.toml several/work.csv 5
expect 2 "$(says "$usage")" runall several/tasks.toml several/work.csv 2 5 2
expect 2 "$(says "$usage")" run several/tasks.toml several/work.csv 5 2
expect 2 "$(says "$usage")" stretch
expect 2 "$(says "$usage")" stretch control/tasks.toml 100
expect 2 "$(says "$usage")" accept 1 50
expect 2 "$(says "$usage")" accept 1 50 8 1
for sets in '' 0 10001; do
    expect 2 "$(says "$usage")" accept 1 "$sets" 8
done
for count in '' 0 1 33; do
    expect 2 "$(says "$usage")" accept 1 50 "$count"
done
expect 2 "$(says "$usage")" accept 18446744073709551616 1 8
# Number and sets together are 2^64.
expect 2 "$(says "$usage")" accept 18446744073709551615 1 8
expect 2 "$(says "$usage")" accept 18446744073709541616 10000 8
expect 2 "$(says "$usage")" migrate runs/tasks.toml
expect 2 "$(says "$usage")" migrate runs/tasks.toml runs/rows.csv 1 1
expect 1 refused/high_load.txt live refused/high_load.toml 10
expect 3 refused/zero_period.txt live refused/zero_period.toml 10

# Files: absent, a folder, at the limit and past it, bytes that are no text.
expect 7 "$(says 'read fault on file 1')" check "$work/absent.toml"
expect 7 "$(says 'read fault on file 1')" check "$work"
length=$(wc -c <control/tasks.toml)
{ cat control/tasks.toml; head -c $((16777216 - length)) /dev/zero | tr '\0' '\n'; } >"$work/full.toml"
expect 0 control/check.txt check "$work/full.toml"
echo >>"$work/full.toml"
expect 7 "$(says 'file 1 is longer than 16777216 bytes')" check "$work/full.toml"
printf 'a = "\377"\n' >"$work/bytes.toml"
expect 3 "$(says 'task file: not TOML')" check "$work/bytes.toml"

# Work files: absent, hostile bytes, lines that a reader can go to, a million ticks.
header='task,release,need'
# refuses LINE TEXT: a work file of this text is refused with this line
refuses() {
    # shellcheck disable=SC2059
    printf "$2" >"$work/work.csv"
    expect 4 "$(says "work file line $1")" run overrun/tasks.toml "$work/work.csv" 10
}
expect 7 "$(says 'read fault on file 2')" run overrun/tasks.toml "$work/absent.csv" 12
expect 7 "$(says 'read fault on file 1')" run "$work/absent.toml" "$work/absent.csv" 12
refuses '1: header is not task,release,need' ''
refuses '1: header is not task,release,need' 'ctl,0,6\n'
refuses '2: unknown task' "$header\nbob,0,1\n"
refuses '3: too soon, next 10' "$header\nctl,0,6\nctl,9,1\n"
refuses '2: need is 0' "$header\nctl,0,0\n"
refuses '3: release before the last one' "$header\nlog,5,1\nctl,4,1\n"
refuses '2: not three fields' "$header\nctl,0\n"
refuses '2: bad number' "$header\nctl,4294967296,1\n"
refuses '2: bad number' "$header\nctl,00000000001,1\n"
refuses '2: unknown task' "$header\n\377,0,1\n"
printf '\357\273\277%s\r\n\r\n"ctl",0,"6"\r\nlog,0,0000000005\r\nlog,10,5' "$header" >"$work/work.csv"
expect 0 overrun/run.txt run overrun/tasks.toml "$work/work.csv" 12
printf '%s\n' "$header" >"$work/work.csv"
printf 'event,tick,length,task,job,how\nidle,0,1000000,,,\n' >"$work/idle.csv"
expect 0 "$work/idle.csv" run overrun/tasks.toml "$work/work.csv" 1000000
{ printf '%s\n' "$header"; head -c 16777200 /dev/zero | tr '\0' '\n'; } >"$work/work.csv"
expect 7 "$(says 'file 2 is longer than 16777216 bytes')" run overrun/tasks.toml "$work/work.csv" 12
{ printf 'task = [{name="a", level="low", period=1, low=1}]\n'; } >"$work/tasks.toml"
{ printf '%s\n' "$header"; awk 'BEGIN { for (i = 0; i <= 1000000; i++) print "a," i ",1" }'; } >"$work/work.csv"
expect 4 "$(says 'work file line 1000002: more than 1000000 rows')" run "$work/tasks.toml" "$work/work.csv" 10

# Traces: absent, cut, past the limit of bytes; and half a million pending jobs at a time.
rows='event,tick,task,job,how'
runs_header='event,tick,length,task,job,how'
# answers STATUS LINE HEADER RECORDS: a trace with the header and then these records gets this verdict for the control set
answers() {
    # shellcheck disable=SC2059
    printf "$3\n$4" >"$work/trace.csv"
    expect "$1" "$(says "$2")" judge judged/tasks.toml "$work/trace.csv"
}
expect 7 "$(says 'read fault on file 2')" judge judged/tasks.toml "$work/absent.csv"
answers 5 'trace line 1: header is of no trace version' '' ''
answers 5 'trace line 1: header is of no trace version' "$rows,length" 'idle,0,,,\n'
answers 5 'trace line 3: not five fields' "$rows" 'release,0,ctl,1,kept\ntick,0,ct'
answers 0 'legal late 0' "$runs_header" ''
answers 0 'legal late 0' "$runs_header" 'idle,0,100000000,,,\n'
answers 0 'legal late 0' "$runs_header" '"idle",0000000000,"0100000000",,,\r\n\r\nrelease,100000000,,ctl,1,"kept"'
answers 5 'trace line 2: more than 100000000 ticks' "$runs_header" 'idle,0,100000001,,,\n'
answers 5 'trace line 3: more than 100000000 ticks' "$runs_header" 'idle,0,100000000,,,\nidle,100000000,1,,,\n'
answers 6 'illegal row 6 wrong_how' "$runs_header" 'release,0,,log,1,kept\ntick,0,5,log,1,more\n'
answers 6 'illegal row 100000001 wrong_count' "$runs_header" 'idle,0,100000000,,,\nrelease,100000000,,ctl,2,kept\n'
answers 5 'trace line 3: bad length' "$runs_header" 'release,0,,ctl,1,kept\ntick,0,2,ctl,1,done\n'
answers 5 'trace line 2: bad length' "$runs_header" 'idle,0,0,,,\n'
answers 5 'trace line 2: not six fields' "$runs_header" 'idle,0,,,\n'
answers 5 'trace line 2: unknown event' "$runs_header" 'release,0,1,ctl,1,kept\n'
answers 5 'trace line 2: unknown task' "$runs_header" 'tick,1,0,bob,x,done\n'
answers 5 'trace line 2: bad number' "$runs_header" 'tick,1,,ctl,1,done\n'
answers 5 'trace line 2: bad number' "$runs_header" 'idle,0,4294967296,,,\n'
answers 5 'trace line 2: wrong tick' "$runs_header" 'tick,1,0,ctl,1,done\n'
answers 5 'trace line 3: wrong tick' "$runs_header" 'idle,0,5,,,\nidle,1,1,,,\n'
answers 5 'trace line 2: unknown event' "$runs_header" '\377,0,1,,,\n'
# vector STATUS LINE RECORDS: these rows are judged so in version 1, and in version 2 with a record for each of them
vector() {
    answers "$1" "$2" "$rows" "$3"
    sed 1d "$work/trace.csv" | awk -F, -v OFS=, -v header="$runs_header" '
        BEGIN { print header } { $2 = $2 OFS ($1 == "release" ? "" : 1); print }' >"$work/runs.csv"
    expect "$1" "$(says "$2")" judge judged/tasks.toml "$work/runs.csv"
}
vector 6 'illegal row 3 too_soon' 'release,0,log,1,kept\ntick,0,log,1,done\nrelease,1,log,2,kept\n'
vector 6 'illegal row 1 wrong_count' 'release,0,ctl,2,kept\n'
vector 6 'illegal row 1 wrong_kept' 'release,0,ctl,1,dropped\n'
vector 6 'illegal row 1 not_pending' 'tick,0,ctl,1,more\n'
vector 6 'illegal row 3 not_least' 'release,0,ctl,1,kept\nrelease,0,log,1,kept\ntick,0,log,1,more\n'
vector 6 'illegal row 3 wrong_how' 'release,0,ctl,1,kept\ntick,0,ctl,1,more\ntick,1,ctl,1,more\n'
vector 6 'illegal row 2 idle_pending' 'release,0,ctl,1,kept\nidle,0,,,\n'
both='release,0,ctl,1,kept\nrelease,0,log,1,kept\ntick,0,ctl,1,more\ntick,1,ctl,1,over\n'
vector 6 'illegal row 5 not_pending' "${both}tick,2,log,1,more\n"
alone='release,0,ctl,1,kept\ntick,0,ctl,1,more\ntick,1,ctl,1,over\n'
vector 6 'illegal row 6 wrong_kept' "${alone}tick,2,ctl,1,done\nidle,3,,,\nrelease,4,log,1,dropped\n"
four='tick,0,log,1,more\ntick,1,log,1,more\ntick,2,log,1,more\ntick,3,log,1,more\n'
vector 6 'illegal row 6 wrong_how' "release,0,log,1,kept\n${four}tick,4,log,1,over\n"
vector 6 'illegal row 4 wrong_kept' "${alone}release,2,log,1,kept\n"
vector 6 'illegal row 3 not_pending' 'release,0,log,1,kept\ntick,0,log,1,done\ntick,1,log,1,more\n'
vector 0 'legal late 0' 'release,0,ctl,1,kept\ntick,0,ctl,1,done\nidle,1,,,\n'
# Those whose equal ticks can stand in one record.
answers 6 'illegal row 3 wrong_how' "$runs_header" 'release,0,,ctl,1,kept\ntick,0,2,ctl,1,more\n'
answers 6 'illegal row 6 wrong_how' "$runs_header" 'release,0,,log,1,kept\ntick,0,4,log,1,more\ntick,4,1,log,1,over\n'

{ printf '%s\nidle,0,1000000,,,\n' "$runs_header"; printf 'idle,1000000,1000000,,,\n'; } >"$work/trace.csv"
bounded "$program" chart judged/tasks.toml "$work/trace.csv" >"$work/chart.txt"
status=$?
wc -c <"$work/chart.txt" | tr -d ' ' >"$work/out"
judge 0 "$status" "$(says 6000024)" 'chart, of two million ticks'
printf 'idle,2000000,1,,,\n' >>"$work/trace.csv"
expect 5 "$(says 'trace has 2000001 ticks, a chart has at most 2000000')" chart judged/tasks.toml "$work/trace.csv"
printf 'release,2000001,,ctl,2,kept\n' >>"$work/trace.csv"
expect 6 "$(says 'illegal row 2000002 wrong_count')" chart judged/tasks.toml "$work/trace.csv"
for text in "$rows" "$runs_header"; do
    { printf '%s\n' "$text"; head -c $((134217728 - ${#text} - 1)) /dev/zero | tr '\0' '\n'; } >"$work/trace.csv"
    expect 0 judged/legal.txt judge judged/tasks.toml "$work/trace.csv"
    echo >>"$work/trace.csv"
    expect 7 "$(says 'file 2 is longer than 134217728 bytes')" judge judged/tasks.toml "$work/trace.csv"
done

# in_memory MEBIBYTES STATUS TEXT WORDS..: the words give this status and the text of this file in this much memory
in_memory() {
    limit=$1
    want=$2
    text=$3
    shift 3
    (ulimit -v $((limit * 1024)) && bounded "$program" "$@") >"$work/out"
    judge "$want" $? "$text" "$* in $limit MiB"
}
# A record that is wider than its header is refused by its width, in little more memory than its file.
# wides LINE HEADER: a trace with this header and one record, of commas and of line feeds in quotes
wides() {
    # shellcheck disable=SC2059
    { printf "$2"; head -c $((134217728 - 64)) /dev/zero | tr '\0' ','; } >"$work/trace.csv"
    in_memory 200 5 "$(says "trace line $1")" judge judged/tasks.toml "$work/trace.csv"
    { printf "$2"; printf '"'; yes '","' | head -c $((134217728 - 64)); } >"$work/trace.csv"
    in_memory 200 5 "$(says "trace line $1")" judge judged/tasks.toml "$work/trace.csv"
}
wides '1: header is of no trace version' ''
wides '2: not five fields' "$rows\n"
wides '2: not six fields' "$runs_header\n"
{ printf '%s\n' "$header"; head -c $((16777216 - 64)) /dev/zero | tr '\0' ','; } >"$work/work.csv"
in_memory 64 4 "$(says 'work file line 2: not three fields')" run overrun/tasks.toml "$work/work.csv" 10
{ echo task,period,deadline,budget; head -c $((16777216 - 64)) /dev/zero | tr '\0' ','; } >"$work/work.csv"
in_memory 64 11 "$(says 'demand file line 2: not four fields')" demand "$work/work.csv"

# A task file that says a set takes little more memory than its size. The tree of another one may take 600 times its size: where
# there is less memory, nothing is written.
# tables COUNT: a task file with this many inline tables, each with 79 in it
tables() {
    awk -v count="$1" 'BEGIN {
        for (i = 1; i < 80; i++) key = key "a."
        printf "x=["
        for (i = 0; i < count; i++) printf "{%sa=1},", key
        print "]" }' >"$work/tables.toml"
}
length=$(wc -c <control/tasks.toml)
{ cat control/tasks.toml; yes '# {a.a.a} [[b.b.b]]' | head -c $((16777216 - length - 1)); echo; } >"$work/full.toml"
in_memory 32 0 control/check.txt check "$work/full.toml"
tables 400
in_memory 64 3 "$(says 'task file: unknown key x')" check "$work/tables.toml"
tables 102000
in_memory 64 9 "$work/empty" check "$work/tables.toml"

{ printf '%s\n' "$runs_header"; awk 'BEGIN { for (i = 0; i <= 2000000; i++) print "idle," i ",1,,," }'; } >"$work/trace.csv"
expect 5 "$(says 'trace line 2000002: more than 2000000 rows')" judge judged/tasks.toml "$work/trace.csv"
sed '$d' "$work/trace.csv" >"$work/full.csv"
printf '%s\nidle,0,2000000,,,\n' "$runs_header" >"$work/one.csv"
expect 0 "$work/one.csv" migrate judged/tasks.toml "$work/full.csv"
printf 'task = [{name="a", level="low", period=1, low=1}, {name="b", level="low", period=1, low=1}]\n' >"$work/tasks.toml"
half_served >"$work/trace.csv"
expect 6 "$(says 'legal late 999999 first b 1')" judge "$work/tasks.toml" "$work/trace.csv" 1 1
half_served | awk -F, -v OFS=, '{ $2 = $2 OFS (NR == 1 ? "length" : $1 == "tick" ? 1 : ""); print }' >"$work/trace.csv"
expect 6 "$(says 'legal late 999999 first b 1')" judge "$work/tasks.toml" "$work/trace.csv" 1 1

# Demand files: absent, a folder, at the limit of bytes and past it, hostile bytes, at the limits of tasks and periods.
demands='task,period,deadline,budget'
# meets LENGTH RECORDS: the tasks of a demand file with the header and then these records meet their deadlines, checked to this length
meets() {
    # shellcheck disable=SC2059
    printf "$demands\n$2" >"$work/demands.csv"
    expect 0 "$(says "schedulable, demand checked to $1")" demand "$work/demands.csv"
}
# refused_demands LINE TEXT: a demand file of this text is refused with this line
refused_demands() {
    # shellcheck disable=SC2059
    printf "$2" >"$work/demands.csv"
    expect 11 "$(says "demand file line $1")" demand "$work/demands.csv"
}
expect 7 "$(says 'read fault on file 1')" demand "$work/absent.csv"
expect 7 "$(says 'read fault on file 1')" demand "$work"
length=$(wc -c <demand/within.csv)
{ cat demand/within.csv; head -c $((16777216 - length)) /dev/zero | tr '\0' '\n'; } >"$work/demands.csv"
expect 0 demand/within.txt demand "$work/demands.csv"
echo >>"$work/demands.csv"
expect 7 "$(says 'file 1 is longer than 16777216 bytes')" demand "$work/demands.csv"
refused_demands "1: header is not $demands" ''
refused_demands "1: header is not $demands" 'a,4,2,1\n'
refused_demands "1: header is not $demands" "$demands,\na,4,2,1\n"
refused_demands '1: no tasks' "$demands\n\n"
refused_demands '3: not four fields' "$demands\na,4,2,1\nb,4,2\n"
refused_demands '2: bad name' "$demands\n\377,4,2,1\n"
refused_demands '2: bad name' "$demands\na b,0,x,1\n"
refused_demands '3: name used before' "$demands\na,4,2,1\na,x,2,1\n"
refused_demands '2: bad number' "$demands\na,0,4294967296,1\n"
refused_demands '2: bad number' "$demands\na,00000000004,2,1\n"
refused_demands '2: number is 0' "$demands\na,2,4,0\n"
refused_demands '2: deadline after period' "$demands\na,500001,500002,1\n"
refused_demands '2: periods out of range' "$demands\na,500001,2,1\n"
refused_demands '3: periods out of range' "$demands\na,1000,1,1\nb,501,1,1\nc,0,1,1\n"
printf '\357\273\277%s\r\n\r\n"a",4,0000000002,"1"\r\nb,6,3,2' "$demands" >"$work/demands.csv"
expect 0 demand/within.txt demand "$work/demands.csv"
meets 1 'a,1,1,1\n'
meets 500000 'a,500000,1,1\n'
meets 500000 'a,15625,15625,7813\nb,32,32,15\n'
cat >"$work/past.txt" <<'END'
not schedulable: demand 4294967295 in length 1
release a 1 at 0
tick 0 a 1
late a 1
END
printf '%s\na,1,1,4294967295\n' "$demands" >"$work/demands.csv"
expect 10 "$work/past.txt" demand "$work/demands.csv"
# 128 tasks of one period and deadline, whose budgets fill it; with a tick more, the last of them is late.
# crowd BUDGET: these tasks, with this budget of the last one
crowd() {
    echo "$demands"
    awk -v last="$1" 'BEGIN { for (i = 1; i < 128; i++) print "t" i ",500000,500000,3906"; print "t128,500000,500000," last }'
}
crowd 3938 >"$work/demands.csv"
expect 0 "$(says 'schedulable, demand checked to 500000')" demand "$work/demands.csv"
echo 't129,500000,500000,1' >>"$work/demands.csv"
expect 11 "$(says 'demand file line 130: more than 128 tasks')" demand "$work/demands.csv"
crowd 3939 >"$work/demands.csv"
{
    echo 'not schedulable: demand 500001 in length 500000'
    awk 'BEGIN { for (i = 1; i <= 128; i++) print "release t" i " 1 at 0"
        for (t = 0; t < 500000; t++) print "tick " t " t" (t < 127 * 3906 ? int(t / 3906) + 1 : 128) " 1"
        print "late t128 1" }'
} >"$work/past.txt"
expect 10 "$work/past.txt" demand "$work/demands.csv"

# Several processors: the first refusal decides, in the order of the steps. The words come before the tasks, these before
# their fit, and that before the work, which is read for the whole set.
expect 2 "$(says "$usage")" partition "$work/absent.toml" 17
expect 7 "$(says 'read fault on file 1')" partition "$work/absent.toml" 1
expect 7 "$(says 'read fault on file 1')" partition "$work" 2
expect 7 "$(says 'read fault on file 1')" runall "$work/absent.toml" "$work/absent.csv" 5 2
expect 3 refused/zero_period.txt partition refused/zero_period.toml 1
expect 3 refused/zero_period.txt runall refused/zero_period.toml "$work/absent.csv" 5 2
expect 12 several/one.txt runall several/tasks.toml "$work/absent.csv" 5 1
expect 7 "$(says 'read fault on file 2')" runall several/tasks.toml "$work/absent.csv" 5 2
{ cat several/work.csv; head -c 16777200 /dev/zero | tr '\0' '\n'; } >"$work/work.csv"
expect 7 "$(says 'file 2 is longer than 16777216 bytes')" runall several/tasks.toml "$work/work.csv" 5 2
expect 12 several/one.txt runall several/tasks.toml "$work/work.csv" 5 1
# refuses_all LINE TEXT: a work file of this text is refused with this line
refuses_all() {
    # shellcheck disable=SC2059
    printf "$2" >"$work/work.csv"
    expect 4 "$(says "work file line $1")" runall several/tasks.toml "$work/work.csv" 5 2
}
refuses_all '1: header is not task,release,need' ''
refuses_all '4: unknown task' "$header\ntap,0,1\nlog,0,1\nbob,0,1\n"
refuses_all '4: too soon, next 10' "$header\nlog,0,1\ntap,0,1\nlog,9,1\n"
refuses_all '3: release before the last one' "$header\nlog,5,1\ntap,4,1\n"
refuses_all '2: need is 0' "$header\nlog,0,0\n"
# The whole set's periods are out of range, those of each of two processors are not; and what one processor refuses.
{
    printf '[[task]]\nname = "a"\nlevel = "low"\nperiod = 4294967295\nlow = 1\n\n'
    printf '[[task]]\nname = "b"\nlevel = "low"\nperiod = 4294967294\nlow = 1\n'
} >"$work/apart.toml"
expect 3 "$(says 'task file: task 2: periods out of range')" check "$work/apart.toml"
expect 0 "$(says 'processor 1 a
processor 2 b')" partition "$work/apart.toml" 2
expect 12 "$(says 'not partitioned: task b fits on none of 1')" partition "$work/apart.toml" 1
# With its high budget this set does not fit under plain EDF, and on one processor it does by the test.
expect 0 "$(says 'processor 1 ctl log
processor 2')" partition control/tasks.toml 2

# table NAME LEVEL PERIOD LOW [HIGH]: a task's table
table() {
    printf '[[task]]\nname = "%s"\nlevel = "%s"\nperiod = %s\nlow = %s\n' "$1" "$2" "$3" "$4"
    if [ $# -eq 5 ]; then printf 'high = %s\n' "$5"; fi
    echo
}
# An earlier processor is tried again, and the first that takes a task gets it, even if another is fuller. The task that is
# named is the first that none of them takes: `c` still fits, and `d` does not.
{ table a low 10 5; table b low 10 8; table c low 10 2; table d low 10 3; table e low 10 2; } >"$work/first.toml"
expect 0 "$(says 'processor 1 a c d
processor 2 b e')" partition "$work/first.toml" 2
{ table a low 10 5; table b low 10 11; } >"$work/first.toml"
expect 12 "$(says 'not partitioned: task b fits on none of 16')" partition "$work/first.toml" 16
{ table a low 10 9; table b low 10 9; table c low 10 1; table d low 10 2; table e low 10 3; } >"$work/first.toml"
expect 12 "$(says 'not partitioned: task d fits on none of 2')" partition "$work/first.toml" 2

# 16 tasks that each take a whole processor, and one more.
for number in 1 2 3 4 5 6 7 8 9 10 11 12 13 14 15 16; do table "t$number" low 2 2; done >"$work/whole.toml"
awk 'BEGIN { for (n = 1; n <= 16; n++) print "processor " n " t" n }' >"$work/whole.txt"
expect 0 "$work/whole.txt" partition "$work/whole.toml" 16
expect 12 "$(says 'not partitioned: task t16 fits on none of 15')" partition "$work/whole.toml" 15
table more low 2 1 >>"$work/whole.toml"
expect 12 "$(says 'not partitioned: task more fits on none of 16')" partition "$work/whole.toml" 16

# 128 tasks, of which each processor takes ten: high and low ones in turn, with their jobs at each period.
awk 'BEGIN { for (i = 1; i <= 128; i++) { high = i % 2
    printf "[[task]]\nname = \"t%d\"\nlevel = \"%s\"\nperiod = 100\nlow = %d\n", i, high ? "high" : "low", high ? 2 : 10
    if (high) print "high = 18"
    print "" } }' >"$work/crowd.toml"
awk 'BEGIN { print "task,release,need"; for (t = 0; t < 1000; t += 100) for (i = 1; i <= 128; i++)
    print "t" i "," t "," (i % 2 ? (i * 7 + t / 100) % 5 ? 2 : 18 : 10) }' >"$work/crowd.csv"
awk 'BEGIN { for (n = 1; n <= 16; n++) { line = "processor " n
    for (i = 10 * n - 9; i <= 10 * n && i <= 128; i++) line = line " t" i
    print line } }' >"$work/crowd.txt"
expect 0 "$work/crowd.txt" partition "$work/crowd.toml" 16
expect 12 "$(says 'not partitioned: task t121 fits on none of 12')" partition "$work/crowd.toml" 12

# by_part TASKS WORK TICKS M: what runall writes is what run writes for each processor's tasks and their jobs, and judged legal
by_part() {
    bounded "$program" partition "$1" "$4" >"$work/parts.txt"
    : >"$work/by_part.txt"
    while read -r _ number names; do
        [ -n "$names" ] || continue
        awk -v names=" $names " 'BEGIN { RS = ""; FS = "\"" } index(names, " " $2 " ") { print $0 "\n" }' "$1" >"$work/part.toml"
        awk -F, -v names=" $names " 'NR == 1 || index(names, " " $1 " ")' "$2" >"$work/part.csv"
        echo "processor $number" >>"$work/by_part.txt"
        bounded "$program" run "$work/part.toml" "$work/part.csv" "$3" >"$work/part.txt"
        cat "$work/part.txt" >>"$work/by_part.txt"
        expect 0 judged/legal.txt judge "$work/part.toml" "$work/part.txt"
    done <"$work/parts.txt"
    expect 0 "$work/by_part.txt" runall "$1" "$2" "$3" "$4"
}
sed 1d several/tasks.toml >"$work/several.toml"
by_part "$work/several.toml" several/work.csv 5 2
by_part "$work/crowd.toml" "$work/crowd.csv" 1000 16
by_part "$work/crowd.toml" "$work/crowd.csv" 1 13
printf '%s\n' "$header" >"$work/none.csv"
by_part "$work/crowd.toml" "$work/none.csv" 100000 16

# Task files of version 2, with a scale.
# scaled TOP [TASKS]: a task file with these lines and then those of this file, by default of the control set
scaled() {
    printf '%b' "$1" | cat - "${2:-control/tasks.toml}" >"$work/scaled.toml"
}
# says_scale TOP LINE [LAST]: with these lines the control set has this line in place of its scale, and this one at the end
says_scale() {
    scaled "$1"
    { sed "s,^x .*,$2," control/check.txt; [ -z "${3:-}" ] || echo "$3"; } >"$work/scaled.txt"
    expect 0 "$work/scaled.txt" check "$work/scaled.toml"
}
says_scale 'version = 2\nscale = [2, 4]\n' 'x 1/2'
says_scale 'version = 2\nscale = [1, 1]\n' 'x 2/5' 'scale 1/1 does not hold'
says_scale 'version = 2\n' 'x 2/5'
says_scale 'version = 1\n' 'x 2/5'
says_scale 'version = 2\nscale = [2, 5]\n' 'x 2/5'
says_scale 'version = 2\nscale = [4, 5]\n' 'x 4/5'
says_scale 'version = 2\nscale = [800000001, 1000000000]\n' 'x 2/5' 'scale 800000001/1000000000 does not hold'
says_scale 'version = 2\nscale = [399999999, 1000000000]\n' 'x 2/5' 'scale 399999999/1000000000 does not hold'
says_scale 'version = 2\nscale = [4294967295, 4294967295]\n' 'x 2/5' 'scale 1/1 does not hold'
says_scale 'version = 2\nscale = [2147483647, 4294967294]\n' 'x 1/2'

# Under the scale the high task of the plain pair overruns; it decides for each command that is under the test's rule.
{ table hi high 4 1 2; table lo low 4 2; } >"$work/pair.toml"
printf '%s\nhi,0,2\nlo,0,2\n' "$header" >"$work/pair.csv"
cat >"$work/pair.txt" <<'END'
event,tick,length,task,job,how
release,0,,hi,1,kept
release,0,,lo,1,kept
tick,0,1,hi,1,more
tick,1,1,hi,1,done
tick,2,1,lo,1,more
tick,3,1,lo,1,done
END
cat >"$work/scaled.txt" <<'END'
event,tick,length,task,job,how
release,0,,hi,1,kept
release,0,,lo,1,kept
tick,0,1,hi,1,over
tick,1,1,hi,1,done
idle,2,2,,,
END
expect 0 "$work/pair.txt" run "$work/pair.toml" "$work/pair.csv" 4
scaled 'version = 2\nscale = [1, 2]\n' "$work/pair.toml"
expect 0 "$(says 'tasks 2
U_LL 1/2
U_HL 1/4
U_HH 1/2
rule virtual
x 1/2')" check "$work/scaled.toml"
expect 0 "$work/scaled.txt" run "$work/scaled.toml" "$work/pair.csv" 4
expect 0 judged/legal.txt judge "$work/scaled.toml" "$work/scaled.txt"
expect 0 judged/legal.txt judge "$work/scaled.toml" "$work/scaled.txt" 1 2
expect 6 "$(says 'illegal row 3 wrong_how')" judge "$work/pair.toml" "$work/scaled.txt"
expect 6 "$(says 'illegal row 3 wrong_how')" judge "$work/scaled.toml" "$work/pair.txt"
expect 0 "$work/scaled.txt" migrate "$work/scaled.toml" "$work/scaled.txt"
expect 0 "$(says 'hi     OD..
lo     ....
(mode) LHHL')" chart "$work/scaled.toml" "$work/scaled.txt"
expect 0 "$(says 'task hi released 1 kept 1 dropped 0 discarded 0 done 1 stopped 0 ticks 2 response 2
task lo released 1 kept 1 dropped 0 discarded 1 done 0 stopped 0 ticks 0 response -
idle 2
switches 1')" report "$work/scaled.toml" "$work/scaled.txt"
lives "$work/scaled.toml" 1000
# The commands under the published test go without it: a processor's tasks have no scale, nor has a set at a percentage.
{ echo 'processor 1'; cat "$work/pair.txt"; } >"$work/part.txt"
expect 0 "$work/part.txt" runall "$work/scaled.toml" "$work/pair.csv" 4 1
expect 0 "$(says 'processor 1 hi lo')" partition "$work/scaled.toml" 1
scaled 'version = 2\nscale = [1, 2]\n'
expect 0 control/stretch.txt stretch "$work/scaled.toml"
scaled 'version = 2\nscale = [1, 1]\n' several/tasks.toml
expect 0 several/two.txt partition "$work/scaled.toml" 2
# A scale that does not hold beside plain EDF; and sets that have no rule, or periods out of range, whatever their scale.
scaled 'version = 2\nscale = [1, 4]\n' "$work/pair.toml"
expect 0 "$(says 'tasks 2
U_LL 1/2
U_HL 1/4
U_HH 1/2
rule plain
scale 1/4 does not hold')" check "$work/scaled.toml"
expect 0 "$work/pair.txt" run "$work/scaled.toml" "$work/pair.csv" 4
scaled 'version = 2\nscale = [1, 2]\n' refused/high_load.toml
expect 1 refused/high_load.txt check "$work/scaled.toml"
scaled 'version = 2\nscale = [1, 2]\n' refused/periods.toml
expect 3 refused/periods.txt check "$work/scaled.toml"

# Each refusal of what stands at the top, in their order, and of each two that can come together the first.
# refuses_top LINE TOP [TASKS]: a task file with these lines and then those of this file is refused with this line
refuses_top() {
    scaled "$2" "${3:-control/tasks.toml}"
    expect 3 "$(says "task file: $1")" check "$work/scaled.toml"
}
refuses_top 'not TOML' 'version = 2\nscale = [1, 2\n'
refuses_top 'not TOML' 'version = 1\nscale = [1, 9223372036854775808]\n'
refuses_top 'unknown key scale' 'scale = [1, 2]\n'
refuses_top 'unknown key scale' 'version = 1\nscale = [1, 2]\n'
refuses_top 'unknown key scale' 'version = "2"\nscale = [1, 2]\n'
refuses_top 'unknown key scale' 'version = 2.0\nscale = [1, 2]\n'
refuses_top 'unknown key scale' 'version = 3\nscale = [3, 2]\n'
refuses_top 'unknown key ratio' 'ratio = 1\nscale = [1, 2]\n'
refuses_top 'unknown key zone' 'version = 2\nscale = 1\nzone = 1\n'
refuses_top 'unknown key zone' 'version = 3\nzone = 1\n'
refuses_top 'unknown version' 'version = 3\n'
refuses_top 'unknown version' 'version = 0\ntask = []\n' /dev/null
for value in 1 '"1/2"' 0.5 '{}' '[]' '[1]' '[1, 2, 2]' '[1, "2"]' '[1.0, 2]' '[true, 2]' '[[1, 2]]' '[0, "2"]'; do
    refuses_top 'task 0: wrong kind of scale' "version = 2\nscale = $value\n"
done
refuses_top 'task 0: wrong kind of scale' 'version = 2\nscale = []\ntask = []\n' /dev/null
for value in '[3, 2]' '[0, 2]' '[0, 0]' '[1, 0]' '[-2, -1]' '[1, 4294967296]' '[4294967296, 4294967296]' \
    '[1, 9223372036854775807]' '[-9223372036854775808, 1]'; do
    refuses_top 'task 0: out of range scale' "version = 2\nscale = $value\n"
done
refuses_top 'task 0: out of range scale' 'version = 2\nscale = [3, 2]\ntask = []\n' /dev/null
refuses_top 'task 0: out of range scale' 'version = 2\nscale = [3, 2]\ntask = {}\n' /dev/null
refuses_top 'no tasks' 'version = 2\nscale = [1, 2]\ntask = []\n' /dev/null
refuses_top 'no tasks' 'version = 2\nscale = [1, 2]\n' /dev/null
refuses_top 'task 0: wrong kind of task' 'version = 2\nscale = [1, 2]\ntask = {}\n' /dev/null
refuses_top 'task 1: out of range period' 'version = 2\n[[task]]\nname = "log"\nlevel = "low"\nperiod = 0\nlow = 1\n'
refuses_top 'tasks 1 and 3 have one name' 'version = 2\nscale = [1, 2]\n[[task]]\nname = "log"\nlevel = "low"\nperiod = 5\nlow = 1\n'
for command in chart report migrate; do
    expect 3 "$(says 'task file: tasks 1 and 3 have one name')" $command "$work/scaled.toml" "$work/absent.csv"
done
scaled 'version = 2\nscale = [3, 2]\n'
expect 3 "$(says 'task file: task 0: out of range scale')" partition "$work/scaled.toml" 2
expect 3 "$(says 'task file: task 0: out of range scale')" stretch "$work/scaled.toml"
expect 3 "$(says 'task file: task 0: out of range scale')" live "$work/scaled.toml" 10
expect 3 "$(says 'task file: task 0: out of range scale')" judge "$work/scaled.toml" "$work/absent.csv" 1 2

# How far the high budgets of a set may grow.
expect 7 "$(says 'read fault on file 1')" stretch "$work/absent.toml"
expect 3 refused/zero_period.txt stretch refused/zero_period.toml
expect 3 "$(says 'task file: task 2: periods out of range')" stretch "$work/apart.toml"
# stretches TEXT TABLE..: the set of these tables has this text
stretches() {
    expect 0 "$(says "$1")" stretch "$work/room.toml"
}
{ table tap low 2 1; table arm high 4 1 3; } >"$work/room.toml"
stretches 'stretch 133
U_HH 3/4 at 133
U_HH 1/1 at 134'
table one high 1000 1 1 >"$work/room.toml"
stretches 'stretch 1000
U_HH 1/100 at 1000'
table all low 2 2 >"$work/room.toml"
stretches 'stretch 1000
U_HH 0/1 at 1000'
# No budget is above the greatest number, nor below the low one.
table big high 4294967295 1 4294967295 >"$work/room.toml"
stretches 'stretch 1000
U_HH 1/1 at 1000'
{ table cap high 2147483648 1 2147483648; table low low 2147483648 1; } >"$work/room.toml"
stretches 'stretch 99
U_HH 2126008811/2147483648 at 99
U_HH 1/1 at 100'
{ table a low 10 8; table b high 10 2 3; } >"$work/room.toml"
stretches 'stretch 99
U_HH 1/5 at 99
U_HH 3/10 at 100'

# A study, as another program worked it out from the rules; cut by its numbers it adds up to the same.
cat >"$work/accept.txt" <<'END'
100 50
110 49
120 16
130 0
140 0
150 0
160 0
170 0
180 0
190 0
200 0
END
expect 0 "$work/accept.txt" accept 1 50 8
expect 0 "$work/accept.txt" accept 01 0000050 00008
for part in '1 30' '31 19' '50 1'; do
    # shellcheck disable=SC2086
    bounded "$program" accept $part 8
done | awk '{ sum[$1] += $2 } END { for (s = 100; s <= 200; s += 10) print s, sum[s] }' >"$work/out"
judge 0 0 "$work/accept.txt" 'accept, in three parts'
bounded "$program" accept 18446744073709541615 10000 32 >"$work/accept.txt"
expect 0 "$work/accept.txt" accept 18446744073709541615 10000 32
if command -v taskset >/dev/null 2>&1; then
    bounded taskset -c 0 "$program" accept 18446744073709541615 10000 32 >"$work/out"
    judge 0 $? "$work/accept.txt" 'accept, on one processor'
fi
sort -s -k2,2nr "$work/accept.txt" >"$work/out"
judge 0 0 "$work/accept.txt" 'accept, of counts that never rise'
sed 1q "$work/accept.txt" >"$work/out"
judge 0 0 "$(says '100 10000')" 'accept, of which all are admitted as they are'
sed -n '$=' "$work/accept.txt" >"$work/out"
judge 0 0 "$(says 11)" 'accept, of eleven lines'

# quotes PAGE: each block of Rust in the page stands in a file of the callers' crate, line for line, and there is one
quotes() {
    awk '
        FNR == 1 { source = NR > 1 }
        source { text[FILENAME] = text[FILENAME] $0 "\n"; next }
        fence && /^```$/ { fence = 0; next }
        fence { if (rust) block[blocks] = block[blocks] $0 "\n"; next }
        /^```/ { fence = 1; rust = /^```rust$/; if (rust) at[++blocks] = FNR }
        END {
            bad = fence || !blocks
            for (b = 1; b <= blocks; b++) {
                found = 0
                for (file in text) if (index("\n" text[file], "\n" block[b])) found = 1
                if (!found) { bad = 1; print "the block at line " at[b] " stands in no file of calling_examples" }
            }
            exit bad
        }
    ' "$1" ../crates/calling_examples/src/*.rt
}

# The page for callers quotes what is proved, and a page with another line is found out.
quotes ../docs/CALLING.md || failed=$((failed + 1))
sed 's/core\.chosen()/core.out()/' ../docs/CALLING.md >"$work/spoilt.md"
quotes "$work/spoilt.md" >/dev/null && failed=$((failed + 1))

ends examples
