# Sourced by the scripts that run a program of this repository. $top is its folder.

# is_as_its_sources PROGRAM: whether it is there, and nothing that it was made of is newer: sources, crates.txt, HANDLES, the kit.
is_as_its_sources() {
    [ -x "$1" ] && [ "$(cat "${1%/*}/kit" 2> /dev/null)" = "$(rt version)" ] \
        && [ -z "$(find "$top"/crates/*/{src,specs,proofs} "$top/crates.txt" "$top/HANDLES" -type f -newer "$1" -print -quit 2> /dev/null)" ]
}

# program_of CRATE [PROGRAM]: prints the path of the crate's program: the one given, or else the crate's own, which is proved and built first if
# it isn't as its sources.
program_of() {
    local program=${2:-} keep=()
    if [ -z "$program" ]; then
        program=$top/crates/$1/out/$1
        # where `rt check` has built libraries, over the work that it kept
        if compgen -G "$top/crates/*/out/rlib/stamp" > /dev/null; then keep=(--keep); fi
        is_as_its_sources "$program" || "$top/scripts/first-build" "${keep[@]}" "$1" >&2 || exit 1
    fi
    [ -x "$program" ] || { echo "no program at $program" >&2; exit 1; }
    echo "$program"
}

# have_packages NAME..: installs these packages of Debian if one isn't there.
have_packages() {
    local as_root=()
    dpkg -s "$@" > /dev/null 2>&1 && return
    [ "$(id -u)" = 0 ] || as_root=(sudo)
    "${as_root[@]}" apt-get update -qq
    DEBIAN_FRONTEND=noninteractive "${as_root[@]}" apt-get install -y -qq --no-install-recommends "$@" >&2
}
