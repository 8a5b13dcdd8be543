# What each round of the plant ends with, in words. Each line is what examples/ask.c prints of a simulation: done, the round, the state, the clocks.
# usage: awk -f words.awk FILE
# At rest a basic element is in state 0, 1 or 2: it runs, is down, or is down and in repair. An `or` is down in any state but 0.
BEGIN { FS = "\t"; split("runs,is down,is in repair", is, ",") }
{
    split($3, part, ",")
    printf "round %s: dosing pump %s, standby pump %s, north vent %s, south vent %s: the zone is %s\n", $2, is[part[1] + 1], is[part[2] + 1], is[part[3] + 1],
        is[part[4] + 1], part[7] == 0 ? "up" : "down"
}
