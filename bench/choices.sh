# Sourced by the scripts of this folder. $top is the repository's folder.
. "$top/scripts/program.sh"

# read_choices "--rows --rounds" WORD..: splits a script's words into `choices`, for what measures, and `program`, if one is given. A choice that is
# named takes a word. --write, which each script has, puts what is measured into docs/PERFORMANCE.md.
read_choices() {
    local taken=" $1 "
    shift
    choices=() program=''
    while [ $# -gt 0 ]; do
        case $1 in
            --write) choices+=(--document "$top/docs/PERFORMANCE.md") ;;
            -*)
                [[ $taken == *" $1 "* && $# -gt 1 ]] || { echo "no such choice: $1" >&2; exit 2; }
                choices+=("$1" "$2")
                shift
                ;;
            *) program=$1 ;;
        esac
        shift
    done
}

# compile_load FILE: the client of many connections, in C.
compile_load() {
    "${CC:-cc}" -O2 -Wall -Wextra -D_GNU_SOURCE -o "$1" "$top/bench/serve/load.c" -lpthread
}

# mariadb_version: that of MariaDB's server, which is installed if it isn't there.
mariadb_version() {
    have_packages mariadb-server mariadb-client
    dpkg-query -W -f '${Version}' mariadb-server
}
