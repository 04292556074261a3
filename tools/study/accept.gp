# Draws acceptance against stretch, from tables of `edfvd accept`, of a study's sum or of finer.py, each of sets with one number of tasks:
#   gnuplot -e "tables = '4.txt 8.txt 32.txt'; tasks = '4 8 32'; picture = 'accept.png'" tools/study/accept.gp
# The picture is SVG where its name ends so, and PNG otherwise. Of each table the greatest count stands for all sets: generated sets
# are all admitted as they are. The axis ends at the least stretch that no set has, and at the tables' last where there is none.
array sets[words(tables)]
last = 100
do for [i = 1:words(tables)] {
    stats word(tables, i) using ($2 == 0 ? $1 : 1e9):2 nooutput
    sets[i] = STATS_max_y
    end = STATS_min_x
    stats word(tables, i) using 1 nooutput
    end = end < STATS_max ? end : STATS_max
    last = end > last ? end : last
}
if (strlen(picture) > 4 && picture[strlen(picture) - 3:] eq '.svg') {
    set terminal svg size 900,600 font 'sans,12' background 'white'
} else {
    set terminal pngcairo size 900,600 font 'sans,12'
}
set output picture
set xlabel 'stretch of the high budgets, per cent'
set ylabel 'share of the sets that are still admitted'
set xrange [100:last]
set yrange [0:1.02]
set grid
set key top right
plot for [i = 1:words(tables)] word(tables, i) using 1:($2 / sets[i]) with linespoints pointtype 6 + i pointsize 0.6 \
    linewidth 2 title word(tasks, i).' tasks'
