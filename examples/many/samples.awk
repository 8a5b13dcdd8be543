# Samples for the clocks of the greenhouse zone, made up: a range of minutes for each clock, and numbers of a generator that begins at `seed`.
# usage: awk -v seed=1 -f samples.awk > 1.samples
function next_number() { return seed = (seed * 16807) % 2147483647 }
function clock(x, lower, upper,    k) {
    printf "%d", x
    for (k = 0; k < 120; k++) printf "\t%d", lower + next_number() % (upper - lower + 1)
    printf "\n"
}
BEGIN {
    seed = 48271 * seed % 2147483647
    clock(0, 30240, 60480)
    clock(1, 240, 1080)
    clock(2, 20160, 50400)
    clock(3, 60, 180)
    clock(4, 300, 5760)
}
