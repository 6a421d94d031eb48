#!/bin/sh
# Runs pat with the words given: the proved program, where ./prove or the gate made one of the sources as they stand; else one that is
# compiled from them without their proofs. Where that isn't there either, it is made first, in one or two minutes; what the making says
# goes to standard error. With PAT_SHOW=1 in the environment it says there, too, which program runs; and for `help`, a file's name, or a
# terminal as standard input it says there from where a program is read.

# ./pat-otp finds its folder by the same lines: before they have run, no file that both could read is known.
me=$0
while [ -L "$me" ]; do
    target=$(readlink "$me")
    case $target in
    /*) me=$target ;;
    *) me=${me%/*}/$target ;;
    esac
done
case $me in
*/*) here=${me%/*} ;;
*) here=. ;;
esac
. "$here/tools/find_program.sh"
find_program
# shellcheck disable=SC2154
[ -z "$PAT_SHOW" ] || echo "pat: $program, made of the sources of ${commit:-an unknown commit} by $kit: $proved" >&2
# The program's own line of usage doesn't say from where it reads.
case ${1-} in
'') ;;
help) echo 'pat: it reads standard input, as in ./pat check < FILE; docs/LANGUAGE.md, "Commands", has commands and options' >&2 ;;
*)
    if [ -f "${2-}" ]; then
        echo "pat: it takes no file's name: write ./pat $1 < $2" >&2
    elif [ "$1" != load ]; then
        case ${2-} in
        '' | -*) [ ! -t 0 ] || echo "pat: standard input is the terminal, and ends by Ctrl-D; a file is read by ./pat $1 < FILE" >&2 ;;
        *) echo "pat: it takes no file's name, and no file is called $2: one is read by ./pat $1 < FILE" >&2 ;;
        esac
    fi
    ;;
esac
exec "$program" "$@"
