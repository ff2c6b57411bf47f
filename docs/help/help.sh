# What ./ldm and the ldm of the package have besides the program, which has no help of its own. POSIX sh, read by `.`.

# Ends the script where the arguments ask for help or the version: with 0, and what was asked for on standard output; with 64 where
# there is no such help, which standard error says. Else it returns.
#
# Called as: answer_help FOLDER VERSION ARGUMENT ..: the folder with the texts, one for each command, and the file with the version.
answer_help() {
    help_folder=$1
    help_version=$2
    shift 2
    if [ $# = 1 ]; then
        case $1 in
        help | --help | -h) show_help ldm ;;
        --version) show_version ;;
        esac
    elif [ $# = 2 ]; then
        if [ "$1" = help ]; then
            show_help "$2"
        elif has_help "$1"; then
            case $2 in
            --help | -h) show_help "$1" ;;
            --version) show_version ;;
            esac
        fi
    fi
}

# Runs a program that lies beside ldm in place of the script, where the first word names it: `ldm status` is ldm-status. None of these words
# is a command of the program.
#
# Called as: run_beside FOLDER ARGUMENT ..
run_beside() {
    help_beside=$1
    shift
    case ${1-} in
    status | page | from-ldm6 | to-wis2 | from-wis2)
        help_name=$1
        shift
        # it asks nodes by this script
        LDM_COMMAND=${LDM_COMMAND:-$(readlink -f "$0")}
        export LDM_COMMAND
        exec "$help_beside/ldm-$help_name" "$@"
        ;;
    esac
}

# Runs a program with these arguments in place of the script. Where it runs in front on a terminal, a line there says how far a long one is,
# and where it ends with 64, a line behind its own says which help there is.
run_program() {
    help_program=$1
    shift
    # a write behind the limit of the size of a file fails then, and does not end the program by a signal
    trap '' XFSZ
    is_in_front || exec "$help_program" "$@"
    begin_progress "$@"
    "$help_program" "$@"
    help_status=$?
    end_progress
    [ "$help_status" != 64 ] || show_hint "$@"
    exit "$help_status"
}

# Who stands behind gets a signal by its number: so the program has to be that process.
is_in_front() {
    [ -t 2 ] || return
    case $(ps -o stat= -p $$ 2>/dev/null) in
    *+*) return 0 ;;
    esac
    return 1
}

# Has one line of the terminal say each second how far a run of pqinsert is whose files have more than 64 MB in all; or one of pqcat with
# a count, once it takes more than 5 seconds, if it does not write to a terminal. The program itself writes no such line.
begin_progress() {
    help_watcher=
    help_all=0
    case ${1-} in
    pqinsert)
        shift
        count_files "$@"
        [ "$help_all" -gt 67108864 ] || return 0
        set -- pqinsert
        ;;
    pqcat)
        case " $* " in
        *' -c'*) [ ! -t 1 ] || return 0 ;;
        *) return 0 ;;
        esac
        ;;
    *) return 0 ;;
    esac
    watch_program "$1" "$help_all" >&2 &
    help_watcher=$!
}

end_progress() {
    [ -n "$help_watcher" ] || return 0
    kill "$help_watcher" 2>/dev/null
    wait "$help_watcher" 2>/dev/null
    printf '\r\033[K' >&2
}

# The bytes of the files that arguments of pqinsert name, in help_all.
count_files() {
    while [ $# != 0 ]; do
        case $1 in
        -f | -p | -o | -q) shift ;;
        -*) ;;
        *) [ ! -f "$1" ] || help_all=$((help_all + $(wc -c <"$1"))) ;;
        esac
        [ $# = 0 ] || shift
    done
}

# Tells how much the program has read of so many bytes, or has written, by what the system counts, until the script is gone. What is told
# ends with a return to the beginning of its line, so that the next line of the program stands in its place.
watch_program() {
    help_seconds=0
    help_file=$(readlink -f "$help_program")
    while sleep 1 && kill -0 $$ 2>/dev/null; do
        help_seconds=$((help_seconds + 1))
        for help_child in $(ps -o pid= --ppid $$ 2>/dev/null); do
            [ "$(readlink "/proc/$help_child/exe" 2>/dev/null)" = "$help_file" ] || continue
            while read -r help_count help_bytes; do
                case $1$help_count in
                pqinsertrchar:)
                    [ "$help_bytes" -le "$2" ] || help_bytes=$2
                    printf '%d/%d MB\033[K\r' $((help_bytes / 1000000)) $(($2 / 1000000))
                    ;;
                pqcatwchar:)
                    [ "$help_seconds" -le 5 ] || printf '%d MB, %d s\033[K\r' $((help_bytes / 1000000)) "$help_seconds"
                    ;;
                esac
            done 2>/dev/null <"/proc/$help_child/io"
        done
    done
}

show_hint() {
    if [ $# = 0 ]; then
        help_name=
    elif has_help "$1"; then
        help_name=$1
    else
        help_name=$(find_nearest "$1")
        printf 'there is no command %s%s\n' "$1" "${help_name:+; did you mean $help_name?}" | tr -c '[:print:]\n' '?' >&2
    fi
    printf 'see ldm help%s\n' "${help_name:+ $help_name}" >&2
}

# The command whose name takes the fewest letters put in, left out or replaced, where that are at most two. Those of the program come first.
find_nearest() {
    for help_text in "$help_folder"/[!l]*.txt "$help_folder"/l*.txt; do
        help_name=$(basename "$help_text" .txt)
        printf '%s\n' "${help_name#ldm-}"
    done | HELP_WORD=$1 awk '
        function least(a, b) { return a < b ? a : b }
        function distance(from, to, i, j, row, left, corner, above) {
            for (j = 0; j <= length(to); j++) row[j] = j
            for (i = 1; i <= length(from); i++) {
                corner = row[0]
                row[0] = i
                for (j = 1; j <= length(to); j++) {
                    above = row[j]
                    row[j] = least(least(above, row[j - 1]) + 1, corner + (substr(from, i, 1) != substr(to, j, 1)))
                    corner = above
                }
            }
            return row[length(to)]
        }
        length(ENVIRON["HELP_WORD"]) <= 40 {
            found = distance(ENVIRON["HELP_WORD"], $0)
            if (found <= 2 && (nearest == "" || found < best)) { nearest = $0; best = found }
        }
        END { print nearest }'
}

# Whether there is a text of that command, which help_text names then. Programs beside ldm have texts too: that of status is ldm-status.
has_help() {
    case $1 in
    '' | */*) return 1 ;;
    esac
    help_text=$help_folder/$1.txt
    [ -f "$help_text" ] || help_text=$help_folder/ldm-$1.txt
    [ -f "$help_text" ]
}

show_help() {
    if ! has_help "$1"; then
        printf 'ldm: no help on %s; "ldm help" lists the commands\n' "$1" >&2
        exit 64
    fi
    cat "$help_text"
    exit
}

show_version() {
    read -r help_version <"$help_version" && printf 'ldm %s\n' "$help_version"
    exit
}
