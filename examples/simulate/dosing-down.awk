# How long dosing was down in the greenhouse zone. Each line has a round, the ticks since the last, the action, the state and the clocks reset.
# usage: awk -f dosing-down.awk FILE
# Time passes between rounds, in the state that the round before ended with. Dosing is down while neither the dosing pump (component 0 in
# state 0) nor the standby pump (component 2 in state 2) runs.
BEGIN { FS = "\t" }
$1 ~ /^[0-9]+$/ {
    all += $2
    if (down) ticks += $2
    before = down
    split($4, part, ",")
    down = part[1] != 0 && part[3] != 2
    if (down && !before) times++
}
END { printf "dosing was down %.0f times, for %.0f of %.0f ticks\n", times, ticks, all }
