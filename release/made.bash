# What ./ldm, release/make and release/check share: which sources the program is made from, their digest, and the file MADE
# that lies beside a program and says what it was made from. Read by `source`, with $top as the top of the repository.

# Where ./ldm and rt leave the program that they build, and where the program that comes with the repository lies.
built=$top/crates/ldm/out
release=$top/release

say() {
    printf 'ldm: %s\n' "$*" >&2
}

# The line of each crate of this repository in crates.txt, and what the crate stands on; and for ldm and each crate below it,
# the crates of this repository below.
declare -A line_of=() stands_on=() below=()

read_crates() {
    local line crate words
    while IFS= read -r line; do
        line=${line%%#*}
        [[ $line == *:* ]] || continue
        read -r crate _ <<<"${line%%:*}"
        stands_on[$crate]=${line#*:}
        read -ra words <<<"$line"
        line_of[$crate]=${words[*]}
    done <"$top/crates.txt"
}

find_below() {
    local crate=$1 other
    local -A found=()
    [[ -z ${below[$crate]+found} ]] || return 0
    for other in ${stands_on[$crate]}; do
        # a crate of the kit is ready
        [[ -n ${stands_on[$other]+listed} ]] || continue
        find_below "$other"
        for other in "$other" ${below[$other]}; do
            found[$other]=
        done
    done
    below[$crate]=${!found[*]}
}

# The files and folders that the program is made from, as paths below the top.
sources=()

find_sources() {
    local crate part
    sources=(HANDLES)
    for crate in "${!below[@]}"; do
        for part in src specs proofs; do
            [[ ! -d $top/crates/$crate/$part ]] || sources+=("crates/$crate/$part")
        done
    done
}

# SHA-256 of standard input.
sum() {
    local digits
    read -r digits _ < <(sha256sum) && printf '%s\n' "$digits"
}

# The digest of the sources: of the lines of ldm and the crates below it in crates.txt, sorted, with one blank between words;
# and then of what sha256sum prints of each file, sorted by path.
digest_of_sources() {
    {
        for crate in "${!below[@]}"; do
            printf '%s\n' "${line_of[$crate]}"
        done | LC_ALL=C sort
        cd "$top" && find "${sources[@]}" ! -type d -print0 | LC_ALL=C sort -z | xargs -0 sha256sum
    } | sum
}

# A line for each file that the digest is made from: its path, size, times and number in the file system.
list_sources() {
    cd "$top" && find crates.txt "${sources[@]}" ! -type d -printf '%p %s %T@ %C@ %i\n'
}

# Sets `listed` and `digest`. The digest is kept with the list that it was made of, and is good as long as the list is the
# same. The list changes where a file comes, goes or is written, whichever time that gives to it, since the time of a
# file's last change of any kind cannot be set. A write at the very moment of the list might leave its times as they are;
# so nothing is kept while a file is not two seconds old. Where nothing can be kept, the digest is made each time.
find_digest() {
    local kept=$release/.digest list
    listed=$(list_sources)
    { IFS= read -r digest && IFS= read -r -d '' list; } 2>/dev/null <"$kept"
    [[ -z $listed || ${list-} != "$listed"$'\n' ]] || return 0
    digest=$(digest_of_sources)
    [[ -n $listed && -z $(cd "$top" && find crates.txt "${sources[@]}" ! -type d -newerct '2 seconds ago' -print -quit) ]] || return 0
    { printf '%s\n%s\n' "$digest" "$listed" >"$kept.$$" && mv -f "$kept.$$" "$kept"; } 2>/dev/null || return 0
}

# Writes what the program in a folder is made from, and what it needs. The digest is the one that was found before it was
# built; where a source has changed since, nobody knows what it is made from.
write_made() {
    local program=$1/ldm
    rm -f "$1/MADE"
    [[ $(list_sources) == "$listed" ]] || { say "a source changed meanwhile" && return 1; }
    printf '%s: %s\n' >"$1/MADE.new" \
        sources "$digest" \
        program "$(sum <"$program")" \
        kit "$(rt version)" \
        system "Linux on x86-64, glibc $(grep -aoE 'GLIBC_[0-9.]+' "$program" | cut -d_ -f2 | sort -V | tail -n 1)" &&
        mv -f "$1/MADE.new" "$1/MADE"
}

# What the file MADE in a folder says, by name; nothing where there is none.
declare -A made=()

read_made() {
    local line
    made=()
    [[ -r $1/MADE ]] || return
    while IFS= read -r line; do
        [[ $line != ?*': '* ]] || made[${line%%: *}]=${line#*: }
    done <"$1/MADE"
}

# Whether the program in a folder was made from the sources as they stand, and is the one that its MADE tells of.
is_current() {
    read_made "$1" && [[ -f $1/ldm && ${made[sources]-} == "$digest" && $(sum <"$1/ldm") == "${made[program]-}" ]]
}

read_crates
find_below ldm
find_sources
