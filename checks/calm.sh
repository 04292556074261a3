#!/bin/sh
# Runs the built program with 128 tasks beside 8 processes that take all the processors they get. Each run is over within a
# minute, and the text of a plan is what it is without them.
# usage: calm.sh
. "$(dirname -- "$0")/../tools/usage.sh"
takes 0 0 "$@"
cd "$(dirname -- "$0")/../examples" || exit 1
. ../checks/expect.sh

# 128 tasks that are all released at each 128th tick, each for one.
awk 'BEGIN { for (i = 0; i < 128; i++) printf "[[task]]\nname = \"t%d\"\nlevel = \"low\"\nperiod = 128\nlow = 1\n", i }' >"$work/tasks.toml"
awk 'BEGIN { print "task,release,need"; for (t = 0; t < 20000; t += 128) for (i = 0; i < 128; i++) print "t" i "," t ",1" }' >"$work/work.csv"
printf 'task,release,need\n' >"$work/none.csv"

# alone TEXT WORDS..: makes the text of these words, without the busy processes; that run is over within a minute, too
alone() {
    text=$1
    shift
    bounded "$program" "$@" >"$text"
    status=$?
    cp "$text" "$work/out"
    judge 0 "$status" "$text" "$* without the busy processes"
}

alone "$work/turns.csv" run "$work/tasks.toml" "$work/work.csv" 20000
alone "$work/idle.csv" run "$work/tasks.toml" "$work/none.csv" 1000000
# The same with so great budgets that each of 16 processors takes 8 tasks.
sed 's/^low = 1$/low = 16/' "$work/tasks.toml" >"$work/several.toml"
alone "$work/all.txt" runall "$work/several.toml" "$work/work.csv" 20000 16

busy=
trap 'kill $busy 2>/dev/null; rm -rf "$work"' EXIT
number=0
while [ "$number" -lt 8 ]; do
    (while :; do :; done) &
    busy="$busy $!"
    number=$((number + 1))
done

# Each tick is another task's, so the next thread is woken 20,000 times, and as often again for the releases.
expect 0 "$work/turns.csv" run "$work/tasks.toml" "$work/work.csv" 20000
# Nothing is pending: one thread goes on, and the others rest.
expect 0 "$work/idle.csv" run "$work/tasks.toml" "$work/none.csv" 1000000
# 16 executives at once, with 8 threads each.
expect 0 "$work/all.txt" runall "$work/several.toml" "$work/work.csv" 20000 16
# Threads that release when they may: some legal trace, in which no job is late.
bounded "$program" live "$work/tasks.toml" 10000 >"$work/live.csv"
status=$?
: >"$work/out"
judge 0 "$status" "$work/empty" 'live, 128 tasks, beside 8 busy processes'
expect 0 judged/legal.txt judge "$work/tasks.toml" "$work/live.csv"

ends calm
