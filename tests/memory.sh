#!/usr/bin/env bash
# Runs scripts, with a split and a merge of shards, and a plan once for each growth of memory that they ask for, and has that one growth
# refused. Then at most one line is refused for want of memory, and hasn't happened, or the program ends at once with status 1: nothing else
# may come out.
# Usage: tests/memory.sh [PROGRAM]   (proved and built if none is given; needs a C compiler)
set -euo pipefail
top=$(cd "$(dirname "$0")/.." && pwd)
. "$top/scripts/program.sh"
program=$(program_of vtgate_main "${1:-}")
work=$(mktemp -d)
trap 'rm -rf "$work"' EXIT

# Comes before the C library: refuses the program's growth number REFUSE, and makes the file REFUSED if it does.
cat > "$work/refuse.c" <<'C'
#define _GNU_SOURCE
#include <fcntl.h>
#include <link.h>
#include <stdatomic.h>
#include <stdlib.h>
#include <unistd.h>
void *__libc_malloc(size_t), *__libc_realloc(void *, size_t);
static unsigned long low, high, refuse;
static atomic_ulong asked;
static int program(struct dl_phdr_info *info, size_t size, void *data) {
    (void)size, (void)data;
    low = info->dlpi_addr, high = low;
    for (int i = 0; i < info->dlpi_phnum; i++)
        if (info->dlpi_phdr[i].p_type == PT_LOAD && low + info->dlpi_phdr[i].p_vaddr + info->dlpi_phdr[i].p_memsz > high)
            high = low + info->dlpi_phdr[i].p_vaddr + info->dlpi_phdr[i].p_memsz;
    return 1;
}
__attribute__((constructor)) static void begin(void) {
    dl_iterate_phdr(program, NULL);
    refuse = strtoul(getenv("REFUSE"), NULL, 10);
}
static int refused(void *caller) {
    unsigned long at = (unsigned long)caller;
    if (at < low || at >= high || atomic_fetch_add(&asked, 1) + 1 != refuse)
        return 0;
    close(open(getenv("REFUSED"), O_CREAT | O_WRONLY, 0600));
    return 1;
}
#define REFUSED refused(__builtin_return_address(0))
void *malloc(size_t n) { return REFUSED ? NULL : __libc_malloc(n); }
void *realloc(void *p, size_t n) { return REFUSED ? NULL : __libc_realloc(p, n); }
C
cc -O1 -shared -fPIC -o "$work/refuse.so" "$work/refuse.c"

# is_one_of FILE FILE..: the first holds what one of the others does.
is_one_of() {
    local file=$1 other
    shift
    for other in "$@"; do
        cmp -s "$file" "$other" && return 0
    done
    return 1
}

# in_turn NAME INPUT WORD..: runs the program with the words for each growth. $work/NAME.whole.* are the outputs that it may give with
# status 0, $work/NAME.part.* those with status 1; $work/tells.* are what it may tell then on standard error.
in_turn() {
    local name=$1 input=$2 growth=0 status refusals=0 ends=0
    shift 2
    while true; do
        growth=$((growth + 1)) status=0
        rm -f "$work/refused"
        REFUSE=$growth REFUSED=$work/refused LD_PRELOAD=$work/refuse.so "$program" "$@" < "$input" > "$work/out" 2> "$work/errors" || status=$?
        [ -e "$work/refused" ] || break
        if [ $status = 0 ] && is_one_of "$work/out" "$work/$name".whole.*; then
            refusals=$((refusals + 1))
        elif [ $status = 1 ] && is_one_of "$work/out" "$work/$name".part.* &&
            is_one_of "$work/errors" "$work/tells".*; then
            ends=$((ends + 1))
        else
            echo "$name: status $status where growth $growth is refused:" >&2
            cat "$work/out" "$work/errors" >&2
            exit 1
        fi
    done
    echo "$name: $((growth - 1)) growths refused in turn: $ends runs ended with status 1, $refusals went on"
}

# refusal_of FILE: what is printed for the line of the file if it is refused for want of memory.
refusal_of() {
    case $(cat "$1") in
        '! '*) echo F1 ;;
        *) echo 'ERROR 1037 (HY001): out of memory' ;;
    esac
}

# runs NAME WORD..: what the program may give that runs the lines of standard input after the VSchema. Without one of them it gives what
# it gives if that one is refused, but for the refusal.
runs() {
    local name=$1 count=0 at before line
    shift
    cp "$work/schema" "$work/$name.0"
    while IFS= read -r line; do
        count=$((count + 1))
        printf '%s\n' "$line" > "$work/$name.$count"
    done
    for ((at = 0; at <= count; at++)); do
        (cd "$work" && eval cat "$name.{0..$at}") | "$program" "$@" > "$work/$name.part.$at"
    done
    cp "$work/$name.part.$count" "$work/$name.whole.0"
    for ((at = 1; at <= count; at++)); do
        (cd "$work" && eval cat "$name.{0..$((at - 1))}" && if [ $at -lt $count ]; then eval cat "$name.{$((at + 1))..$count}"; fi) |
            "$program" "$@" > "$work/without"
        before=$work/$name.part.$((at - 1))
        { cat "$before"; refusal_of "$work/$name.$at"; tail -c "+$(($(wc -c < "$before") + 1))" "$work/without"; } > "$work/$name.whole.$at"
    done
    (cd "$work" && eval cat "$name.{0..$count}") > "$work/$name.input"
}

: > "$work/tells.nothing"
echo failed > "$work/tells.failed"
echo 'out of memory' > "$work/tells.memory"
{ tr -d '\n' < "$top/examples/shop.json"; echo; } > "$work/schema"

runs script script -80,80- <<'LINES'
a: INSERT INTO t (id, c) VALUES (2, 7), (4, 9)
b: INSERT INTO t (id, c) VALUES (1, 7)
a: SELECT id, c FROM t WHERE NOT (c < 7) ORDER BY c DESC, id LIMIT 5 OFFSET 0
b: UPDATE t SET c = 8 WHERE id = 2
a: INSERT INTO b (k, v) VALUES ('a', 'x')
b: SELECT c, COUNT(*), SUM(id), MAX(id) FROM t GROUP BY c ORDER BY c
b: SELECT v FROM b
a: DELETE FROM t WHERE id = 4
a: SELECT * FROM t WHERE id IN (1, 2, 4)
LINES
in_turn script "$work/script.input" script -80,80-

runs joins script -80,80- <<'LINES'
a: INSERT INTO t (id, c) VALUES (2, 7), (4, 9)
a: INSERT INTO w (id, d) VALUES (2, 20), (2, 21), (4, 40)
b: SELECT t.id, c, d FROM t JOIN w ON t.id = w.id WHERE d > 20 ORDER BY d DESC
b: SELECT * FROM t JOIN w ON t.id = w.id WHERE w.id = 2 AND c = 7 ORDER BY d LIMIT 1
a: BEGIN
a: INSERT INTO w (id, d) VALUES (4, 41)
a: SELECT c, d FROM t JOIN w ON w.id = t.id ORDER BY d
a: COMMIT
b: SELECT d FROM t JOIN w ON t.id = w.id ORDER BY d
LINES
in_turn joins "$work/joins.input" script -80,80-

# A cutover that is refused memory leaves the sources serving and the targets following, as if it hadn't been asked for.
runs split script -80,80- <<'LINES'
a: INSERT INTO t (id, c) VALUES (2, 7), (4, 9), (6, 1)
b: INSERT INTO t (id, c) VALUES (1, 7)
! create -80 -40,40-80
! step
! step
b: UPDATE t SET c = 8 WHERE id = 2
! step
! step
! status
! switch
! status
b: SELECT id, c FROM t ORDER BY id
LINES
in_turn split "$work/split.input" script -80,80-
runs merge script -40,40-80,80- <<'LINES'
a: INSERT INTO t (id, c) VALUES (4, 9)
a: INSERT INTO t (id, c) VALUES (2, 7), (6, 1)
! create -40,40-80 -80
! step
! step
a: DELETE FROM t WHERE id = 4
! switch
! complete
! status
b: SELECT id, c FROM t ORDER BY id
LINES
in_turn merge "$work/merge.input" script -40,40-80,80-

plan=(plan -40,40-80,80- 'SELECT id FROM t WHERE id IN (1, 2) ORDER BY id')
"$program" "${plan[@]}" < "$work/schema" > "$work/plan.whole.0"
echo 'ERROR 1037 (HY001): out of memory' > "$work/plan.part.refused"
: > "$work/plan.part.nothing"
in_turn plan "$work/schema" "${plan[@]}"
