# Finds the program that ./pat runs and ./install installs, which both read this. Of $here, the top of the repository, it sets
#   program   the proved one where ./prove or the gate made it of the sources as they stand; else the one that is compiled from them
#             without their proofs, and where that isn't there either it is made first, in one or two minutes
#   proved    what can be said of that, and commit and kit, from which it was made
# What the making says goes to standard error.
# shellcheck shell=sh

# fits PROGRAM STAMP: whether no source is newer than the beginning of the program's making, which is the stamp's time
fits() {
    [ -x "$here/$1" ] && [ -r "$here/$2" ] || return 1
    sources='' commit='' kit=''
    . "$here/$2"
    # shellcheck disable=SC2086
    newer=$(cd "$here" && exec find $sources -newer "$2" -print -quit 2>&1)
    [ -z "$newer" ]
}

find_program() {
    program=$here/crates/pat_cli/out/pat_cli proved='proved on this machine'
    fits crates/pat_cli/out/pat_cli crates/pat_cli/out/pat.stamp && return
    # shellcheck disable=SC2034
    program=$here/out/quick/pat proved='built and not proved on this machine; ./prove proves it'
    fits out/quick/pat out/quick/stamp && return
    if ! command -v python3 >/dev/null; then
        echo "pat: it isn't built, and python3, which building it needs, isn't on the path" >&2
        exit 69
    fi
    "$here/tools/quick_program" || exit 69
    fits out/quick/pat out/quick/stamp
}
