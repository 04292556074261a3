# shellcheck shell=sh
# Sourced by run.sh and ticks.sh: writes task files and work files into the folder $work, work for 1,000,000 ticks.

# workload NAME: lines of a name, a level, a period, a low and a high budget become NAME.toml and NAME.csv. Each task has a
# job at every period, which needs its low budget.
workload() {
    cat >"$work/lines"
    awk '{ printf "[[task]]\nname = \"%s\"\nlevel = \"%s\"\nperiod = %d\nlow = %d\n", $1, $2, $3, $4
        if ($2 == "high") printf "high = %d\n", $5 }' "$work/lines" >"$work/$1.toml"
    {
        echo task,release,need
        awk '{ for (t = 0; t + $3 <= 1000000; t += $3) printf "%s,%d,%d\n", $1, t, $4 }' "$work/lines" | sort -s -t, -k2,2n
    } >"$work/$1.csv"
}

# 8 tasks of an avionics computer.
workload avionics <<'END'
attitude high 5000 400 900
gyro high 10000 600 1500
engine high 20000 1500 4000
nav high 50000 3000 7000
display low 16667 2500
radio low 25000 2000
log low 100000 8000
maint low 200000 10000
END

# 128 tasks with periods of 1,000 to 2,500 ticks and a load of about 1/200 each; each second one is high, with 5/2 of its
# low budget. The test gives a scale.
awk 'BEGIN {
    count = split("1000 1050 1120 1200 1250 1400 1500 1600 1680 1750 1800 2000 2100 2250 2400 2500", periods, " ")
    for (i = 0; i < 128; i++) {
        period = periods[int(i / 2) % count + 1]; low = int(period / 200 + 0.5)
        print "t" i, i % 2 ? "low" : "high", period, low, i % 2 ? "" : int(low * 5 / 2)
    } }' | workload light

# 128 tasks that are all released at each 128th tick, each for one: 999,936 jobs, and 64 pending ones on average.
awk 'BEGIN { for (i = 0; i < 128; i++) print "t" i, "low", 128, 1 }' | workload crowd
