# shellcheck shell=sh
# Sourced by the scripts of this folder: functions that write task files, demand files and traces, into the folder $work unless
# they say otherwise.

# turns_set: 8 tasks that are all released at each 8th tick, each for one: no two ticks are equal
turns_set() {
    awk 'BEGIN { for (i = 1; i <= 8; i++)
        printf "[[task]]\nname = \"t%d\"\nlevel = \"%s\"\nperiod = 8\nlow = 1\n%s\n", i, i % 2 ? "high" : "low", i % 2 ? "high = 1\n" : "" }' >"$work/turns.toml"
}

# turns VERSION RECORDS: the header and the first RECORDS records of their trace, on standard output
turns() {
    awk -v version="$1" -v records="$2" 'BEGIN {
        print version == 1 ? "event,tick,task,job,how" : "event,tick,length,task,job,how"
        for (place = 0; place < records; place++) {
            round = int(place / 16); step = place % 16; tick = round * 8
            if (step < 8) printf "release,%d,%st%d,%d,kept\n", tick, version == 1 ? "" : ",", step + 1, round + 1
            else printf "tick,%d,%st%d,%d,done\n", tick + step - 8, version == 1 ? "" : "1,", step - 7, round + 1
        }
    }'
}

# idles VERSION RECORDS: the header and RECORDS idle ticks, on standard output
idles() {
    awk -v version="$1" -v records="$2" 'BEGIN {
        print version == 1 ? "event,tick,task,job,how" : "event,tick,length,task,job,how"
        for (tick = 0; tick < records; tick++) printf "idle,%d,%s,,\n", tick, version == 1 ? "" : "1,"
    }'
}

# two_tasks: two tasks, each of which asks for every tick
two_tasks() {
    for name in a b; do
        printf '[[task]]\nname = "%s"\nlevel = "low"\nperiod = 1\nlow = 1\n\n' $name
    done >"$work/two.toml"
}

# two_rows RECORDS: the header and the first RECORDS records of their trace, in which one job is added to the pending ones at each tick,
# on standard output
two_rows() {
    awk -v records="$1" 'BEGIN { print "event,tick,task,job,how"; for (t = 0; t < records / 3; t++) {
        print "release," t ",a," t + 1 ",kept"; print "release," t ",b," t + 1 ",kept"
        print "tick," t "," (t % 2 ? "b" : "a") "," int(t / 2) + 1 ",done" } }'
}

# live_set: 32 tasks of period 200 that need 2 or 3 ticks
live_set() {
    awk 'BEGIN { for (i = 1; i <= 32; i++)
        printf "[[task]]\nname = \"t%d\"\nlevel = \"%s\"\nperiod = 200\nlow = %d\n%s\n", i, i % 2 ? "high" : "low", i % 2 ? 2 : 3, i % 2 ? "high = 5\n" : "" }' >"$work/live.toml"
}

# wide_set: 128 tasks, every other one high, each of a load of about 1/9 in its own mode: some 8 to a processor
wide_set() {
    awk 'BEGIN {
        count = split("100 200 250 400 500 800 1000 2000", periods, " ")
        for (i = 0; i < 128; i++) {
            period = periods[i % count + 1]
            printf "\n[[task]]\nname = \"t%d\"\nperiod = %d\n", i, period
            if (i % 2) printf "level = \"low\"\nlow = %d\n", int(period / 9)
            else printf "level = \"high\"\nlow = %d\nhigh = %d\n", int(period / 18), int(period / 9)
        } }' >"$work/wide.toml"
}

# long_names_set: 128 tasks with long names and large periods, whose least common multiple is 4,294,967,295
long_names_set() {
    awk 'BEGIN { for (i = 1; i <= 128; i++) {
        printf "[[task]]\nname = \"task_with_a_long_name_%03d\"\nlevel = \"%s\"\n", i, i % 2 ? "high" : "low"
        printf "period = %s\nlow = 10000000\n%s\n", i % 2 ? "1431655765" : "4294967295", i % 2 ? "high = 17000000\n" : ""
    } }' >"$work/tasks.toml"
}

# demands NAME: writes the demand file NAME.csv of the tasks in standard input, a line for each: name, period, deadline and budget
demands() {
    { echo task,period,deadline,budget; tr ' ' ','; } >"$work/$1.csv"
}

# demand_sets: demand files at the limits
demand_sets() {
    # 128 tasks whose periods are the divisors of 500,000 from 1,000 up, except two of them, with deadlines of 9/10 of the periods
    # and a load of about 1/200 each.
    awk 'BEGIN {
        count = split("1000 1250 2000 2500 3125 4000 5000 6250 10000 12500 15625 20000 25000 31250 50000 62500 100000 500000", periods, " ")
        for (i = 0; i < 128; i++) {
            period = periods[i % count + 1]
            print "t" i, period, int(period * 9 / 10), int(period / 200)
        } }' | demands wide
    # 127 tasks that release a job at each 160th tick, and one of period 500,000: 396,876 jobs in all.
    awk 'BEGIN { for (i = 0; i < 127; i++) print "t" i, 160, 33 + i, 1; print "long 500000 250000 50000" }' | demands dense
    # 128 tasks of period 500,000, which ask for 500,001 ticks in 500,000: a counterexample of that length.
    awk 'BEGIN { for (i = 1; i < 128; i++) print "t" i, 500000, 500000, 3906; print "t128 500000 500000 3939" }' | demands past
    # The 127 tasks of `dense`, and one with which the set asks for 500,001 ticks in 500,000: a counterexample of that length, in
    # which four of five ticks are the only one of a job.
    awk 'BEGIN { for (i = 0; i < 127; i++) print "t" i, 160, 33 + i, 1; print "long 500000 500000 103126" }' | demands dense_past
}
