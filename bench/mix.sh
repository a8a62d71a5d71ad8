# The messages that the scripts beside this one read, written as printf wants octets: `. mix.sh` has
# them.

# One octet, and so many times an octet.
octet() { printf '\\x%02x' "$1"; }
octets() { local i; for ((i = 0; i < $1; i++)); do octet "$2"; done; }

# A number of two octets.
two() { octet $(($1 >> 8)); octet $(($1 & 255)); }

# A header: marker, Length, Type.
header() { octets 16 255; two "$1"; octet "$2"; }

# So many prefixes of 24 bits, by a number.
prefixes() { local i; for ((i = 0; i < $1; i++)); do octet 24; octet 10; octet "$2"; octet "$i"; done; }

# An UPDATE that announces one to five prefixes with ORIGIN, an AS_PATH of one to four numbers and
# NEXT_HOP, by a number.
announcement() {
    local count=$((1 + $1 % 5)) path=$((1 + $1 % 4)) i
    header $((39 + 4 * path + 4 * count)) 2
    two 0
    two $((16 + 4 * path))
    printf '%s' '\x40\x01\x01\x00'
    octet 64; octet 2; octet $((2 + 4 * path)); octet 2; octet "$path"
    for ((i = 0; i < path; i++)); do two 0; two $((64512 + $1 + i)); done
    printf '%s' '\x40\x03\x04\xc0\x00\x02\x02'
    prefixes "$count" "$1"
}

# An UPDATE that withdraws one to five prefixes, by a number.
withdrawal() {
    local count=$((1 + $1 % 5))
    header $((23 + 4 * count)) 2
    two $((4 * count))
    prefixes "$count" "$1"
    two 0
}

keepalive() { header 19 4; }

# The OPEN of AS 65002 with both families and four-octet AS numbers.
open() {
    header 49 1
    printf '%s' '\x04\xfd\xea\x00\x5a\xc0\x00\x02\x02\x14\x02\x12'
    printf '%s' '\x01\x04\x00\x01\x00\x01\x01\x04\x00\x02\x00\x01\x41\x04\x00\x00\xfd\xea'
}

# A Cease.
notification() { header 21 3; octet 6; octet 2; }

# Some 100 messages: UPDATEs, of which each eighth withdraws, KEEPALIVEs, an OPEN and a NOTIFICATION.
mix() {
    local i
    open
    for ((i = 0; i < 84; i++)); do
        if ((i % 8)); then announcement "$i"; else withdrawal "$i"; fi
        ((i % 6)) || keepalive
    done
    notification
}

# The UPDATEs of the mix alone.
updates() {
    local i
    for ((i = 0; i < 84; i++)); do
        if ((i % 8)); then announcement "$i"; else withdrawal "$i"; fi
    done
}
