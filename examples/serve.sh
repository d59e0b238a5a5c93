#!/usr/bin/env bash
# Serves the tables of examples/shop.json over four shards to MySQL clients on this machine, until Ctrl-C.
# Usage: examples/serve.sh [--unproved] [--password] [PROGRAM]
#   --unproved   without a proof, for ten minutes: compiled with checks, in two to three minutes the first time
#   --password   asks for the password of the user app (the first line of standard input); else it is empty
#   PROGRAM      the built program; proved and built if none is given
# PORT and ADMIN: the two ports, 3306 and 3307 if they are not set.
set -euo pipefail
top=$(cd "$(dirname "$0")/.." && pwd)
port=${PORT:-3306} admin=${ADMIN:-3307} unproved='' secret=- asks='' program=''
while [ $# -gt 0 ]; do
    case $1 in
        --unproved) unproved=yes ;;
        --password)
            IFS= read -rsp 'password: ' password && echo
            # What MySQL keeps of it: SHA1 of its SHA1.
            secret=$(printf %s "$password" | python3 -c 'import hashlib, sys; print(hashlib.sha1(hashlib.sha1(sys.stdin.buffer.read()).digest()).hexdigest())')
            asks=' -p'
            ;;
        -*) sed -n '3,7s/^# //p' "$0" >&2 && exit 2 ;;
        *) program=$1 ;;
    esac
    shift
done
# Whether the port takes connections.
listens() { (exec 3<> "/dev/tcp/127.0.0.1/$port") 2> /dev/null; }
! listens || { echo "port $port is in use: set PORT and ADMIN to two others" >&2; exit 1; }
# A new nonce at each start: salts of logins are made of it.
nonce=$(od -An -tx1 -N32 /dev/urandom | tr -d ' \n')
words=(serve -40,40-80,80-c0,c0- "127.0.0.1:$port" "127.0.0.1:$admin" 8 100 0 app "$secret" "$nonce")
log=$(mktemp)
ended() { kill "$router" 2> /dev/null && wait "$router" 2> /dev/null || true; rm -f "$log"; }
trap 'rm -f "$log"' EXIT
limit=()
if [ -n "$unproved" ]; then
    program=$("$top/scripts/unproved")
    limit=(timeout 600)
else
    . "$top/scripts/program.sh"
    program=$(program_of vtgate_main "$program")
fi
"${limit[@]}" "$program" "${words[@]}" < "$top/examples/shop.json" > "$log" 2>&1 &
router=$!
trap ended EXIT
trap 'echo; exit 0' INT TERM

until listens; do
    kill -0 "$router" 2> /dev/null || { cat "$log" >&2; exit 1; }
    sleep 0.1
done
cat << END
The router listens${unproved:+, for ten minutes: nothing of it is proved}. Connect in another terminal:
  mariadb -h 127.0.0.1 -P $port -u app$asks shop
  scripts/admin --address 127.0.0.1:$admin status
Ctrl-C ends it, and what it holds is gone then.
END
status=0
wait "$router" || status=$?
if [ -n "$unproved" ] && [ $status = 124 ]; then
    echo 'Ten minutes are over; scripts/first-build makes a server that stays.'
    exit 0
fi
[ $status = 0 ] || { cat "$log" >&2; exit 1; }
