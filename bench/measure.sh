# What the scripts beside this one share: `. measure.sh` has them.

# Doubles a file until it has so many octets.
grow() {
    while (($(stat -c %s "$1") < $2)); do
        cat "$1" "$1" > "$1.twice"
        mv "$1.twice" "$1"
    done
}

# The least of three runs, in milliseconds.
best() {
    local least=0 run began ended
    for run in 1 2 3; do
        began=$(date +%s%N)
        "$@" > /dev/null
        ended=$(date +%s%N)
        ((least == 0 || ended - began < least)) && least=$((ended - began))
    done
    echo $((least / 1000000))
}
