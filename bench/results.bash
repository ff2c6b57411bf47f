# Measurements as a data file: plain text, one measurement a line, which is its series, its place on the axis and its value, one tab apart.
# The first lines begin with `#` and name the command, the machine, the date and the unit. `bench/plot` draws these files.
#
# Read by a script of this folder, with the arguments of that script, which may begin with `-o FILE`. It gives
#   words                  the other arguments
#   record SERIES X VALUE  keeps a measurement
#   write_results UNIT     writes FILE with what was kept, if there was a `-o FILE`. Nothing is written before, so a script that fails
#                          leaves the file as it was

results=
measured=
command="bench/${0##*/}"
if [[ ${1-} == -o ]]; then
    results=${2:?the name of a file}
    shift 2
fi
words=("$@")
command+=${words[*]:+ ${words[*]}}

record() {
    measured+=$1$'\t'$2$'\t'$3$'\n'
}

# the processors, the memory and the system, and how many programs wanted to run as the script began
machine="$(nproc) processors, $(awk -F ': *' '/^model name/ { print $2; exit }' /proc/cpuinfo)"
machine+=", $(awk '/^MemTotal:/ { printf "%.0f", $2 / 1048576 }' /proc/meminfo) GiB"
machine+=", Linux $(uname -r | cut -d - -f 1), load $(cut -d ' ' -f 1 /proc/loadavg)"

write_results() {
    [[ -n $results ]] || return 0
    mkdir -p "$(dirname "$results")"
    {
        echo "# command: $command"
        echo "# machine: $machine"
        echo "# date: $(date -u +%F)"
        echo "# unit: $1"
        printf '%s' "$measured"
    } >"$results.new"
    mv "$results.new" "$results"
}
