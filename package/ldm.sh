#!/bin/sh
# Runs the program ldm with the words that it is given. Words that ask for help or the version are answered here, and status, page,
# from-ldm6, to-wis2 and from-wis2 run the program of that name. On a terminal, a line says which help there is where the words are no form
# of a command.
# Under the name of a tool, as pqinsert, the words are those behind that command; ldmd is "ldm node".
here=$(readlink -f "$0") || exit 1
root=${here%/bin/*}
name=${0##*/}
case $name in
pqinsert | wmo | pqcat | pqstats | pqmon | pqact | notifyme) set -- "$name" "$@" ;;
ldmd) set -- node "$@" ;;
esac
. "$root/lib/ldm/help.sh"
answer_help "$root/share/ldm/help" "$root/share/ldm/VERSION" "$@"
run_beside "$root/bin" "$@"
run_program "$root/lib/ldm/ldm" "$@"
