# What `make` and `sheets/make` write lists with. A record is 12 bytes, the low byte first: four of cluster, four of weight, one of state,
# three zero bytes.

byte() { printf "\\x$(printf %02x "$1")"; }

word() {
    local n=$(($1 & 0xffffffff))
    byte $((n & 255))
    byte $((n >> 8 & 255))
    byte $((n >> 16 & 255))
    byte $((n >> 24 & 255))
}

# record CLUSTER WEIGHT STATE
record() {
    word "$1"
    word "$2"
    byte "$3"
    byte 0
    byte 0
    byte 0
}

scored() { record "$1" "$2" 1; }

unscored() { record "$1" 0 0; }

singles() { for t in $(seq 0 $(($1 - 1))); do scored $((1 << t)) 0; done; }
