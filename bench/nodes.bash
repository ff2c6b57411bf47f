# What the benchmarks of nodes have in common. Read by a script of this folder; it gives
#   program       the program: LDM_PROGRAM, else the ./ldm of the repository, which is built before the clock runs
#   load          the load generator, built of load.rs by rustc
#   dir           a folder, removed at the end
#   start_node NAME CONF [OPTION ..]   a node over that configuration, ended at the end; its port is ${port[NAME]}
#   start PORT WORD ..                 a program that listens at that port, ended at the end
#   end_started                        ends all that was started

# a command in $(..) that fails ends the script
shopt -s inherit_errexit

top=$(dirname "$(readlink -f "${BASH_SOURCE[0]}")")/..
dir=$(mktemp -d)
started=()
declare -A port=()

end_started() {
    ((${#started[@]} == 0)) || kill "${started[@]}" 2>/dev/null || true
    wait
    started=()
}

trap 'end_started; rm -rf "$dir"' EXIT

is_open() {
    (exec 3<>"/dev/tcp/127.0.0.1/$1") 2>/dev/null
}

# a port where nobody listens, as `free`
find_port() {
    free=$((20000 + RANDOM % 12000))
    while is_open "$free"; do
        free=$((free + 1))
    done
}

start() {
    local at=$1 tries
    "${@:2}" >>"$dir/output" 2>>"$dir/log" </dev/null &
    started+=($!)
    for tries in {1..600}; do
        if is_open "$at"; then
            return
        fi
        sleep 0.05
    done
    echo "$2 does not listen at $at" >&2
    exit 1
}

start_node() {
    find_port
    port[$1]=$free
    printf '%b' "$2" >"$dir/$1.conf"
    start "$free" "$program" node -p "$free" "${@:3}" "$dir/$1.conf"
}

# rules that let this machine have and push all
open='ALLOW ANY .*\nACCEPT ANY .* .*\n'

program=${LDM_PROGRAM:-$top/ldm}
"$program" play 168 10 </dev/null
load=$dir/load
rustc -O --edition 2021 -o "$load" "$top/bench/load.rs"

# the least number that three runs of a command print
least() {
    local least= told _
    for _ in 1 2 3; do
        told=$("$@")
        if [[ -z $least ]] || awk "BEGIN { exit !($told < $least) }"; then
            least=$told
        fi
    done
    echo "$least"
}

# the seconds that a command takes
seconds_of() {
    local begun
    begun=$(date +%s%N)
    "$@"
    awk "BEGIN { printf \"%.6f\", ($(date +%s%N) - $begun) / 1e9 }"
}

# a line of a table: what, bytes of a product, products, and the command that prints how many seconds it took
tell() {
    local took
    took=$("${@:4}")
    awk -v what="$1" -v size="$2" -v count="$3" -v took="$took" \
        'BEGIN {
            printf "%-24s %10d bytes %9d products %12.0f a second %9.1f MB/s\n", what, size, count, count / took, size * count / took / 1e6
        }'
}
