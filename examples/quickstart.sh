#!/usr/bin/env bash
# From a store to a page, in one go: examples/quickstart.sh [--store sqlite|postgresql] [--program PATH] [FOLDER].
# Starts a store in a temporary folder, has eight clients run some hundred transactions on it at a level that is too weak, judges their log, and
# leaves in FOLDER (quickstart, where none is named), which must be new or empty: run.log, the log; why.txt, what audit says; small.log, the few
# transactions that matter; and why.html, a page with a picture of them. It opens nothing, and leaves no store.
# SQLite, which is taken where no store is named, needs no server; it is serializable, so the clients of this load do what makes it weak.
# PostgreSQL, at its own default level read committed, is started on a socket; it needs its server, and psycopg2 or psycopg for Python.
# Statuses: 0, the page is there; 2, usage; 70, something around is wrong, as a store that is missing.
set -eu
trap '[ $? -eq 0 ] || exit 70' EXIT
self=$(readlink -f "${BASH_SOURCE[0]}")
top=${self%/*/*}
store=sqlite folder='' program=$top/run temporary='' server=''
# where a package has it, else what is on the path
[ -x "$program" ] || program=$(readlink -f "$top/../../bin/cobra_poly") && [ -x "$program" ] || program=cobra_poly

say() {
    echo "quickstart.sh: $1"
}

stop() {
    echo "quickstart.sh: $1" >&2
    exit "${2:-70}"
}

leave() {
    local status=$?
    [ -z "$server" ] || "${as_user[@]}" "$server" -D "$temporary/data" -w -m immediate stop > /dev/null || true
    [ -z "$temporary" ] || rm -rf "$temporary"
    case $status in 0 | 2) exit "$status" ;; esac
    exit 70
}
trap leave EXIT

while [ $# -gt 0 ]; do
    case $1 in
        --help) sed -n '2,/^set/s/^# //p' "$self"; exit ;;
        --store) [ $# -ge 2 ] || stop '--store takes sqlite or postgresql' 2; store=$2; shift ;;
        --program) [ $# -ge 2 ] || stop '--program takes a program' 2; program=$2; shift ;;
        -*) stop "it takes --store, --program and FOLDER, and no '$1'" 2 ;;
        *) [ -z "$folder" ] || stop 'it takes one folder' 2; folder=$1 ;;
    esac
    shift
done
case $store in sqlite | postgresql) ;; *) stop '--store takes sqlite or postgresql' 2 ;; esac
folder=${folder:-quickstart}
[ -z "$(ls -A "$folder" 2> /dev/null)" ] || stop "$folder is not empty: name a new folder"
mkdir -p "$folder"
# Short: the name of a socket in it has at most 107 bytes.
temporary=$(TMPDIR=/tmp mktemp -d)

# A Python that has a driver for PostgreSQL.
python_with_driver() {
    local python
    for python in python3 /usr/bin/python3; do
        if "$python" -c 'import psycopg2' 2> /dev/null || "$python" -c 'import psycopg' 2> /dev/null; then
            echo "$python"
            return
        fi
    done
    stop 'no Python here has psycopg2 or psycopg (python3-psycopg2 of Debian)'
}

as_user=()
case $store in
    sqlite)
        load=(python3 "$top/collect/sqlite.py" --level weak)
        say 'the store: SQLite, a new database, whose clients write back copies' ;;
    postgresql)
        python=$(python_with_driver)
        initdb=$(ls /usr/lib/postgresql/*/bin/initdb 2> /dev/null | sort -V | tail -n 1)
        initdb=${initdb:-$(command -v initdb || true)}
        [ -n "$initdb" ] || stop 'PostgreSQL is not installed here: there is no initdb'
        # it starts for no root; nobody is somebody everywhere
        if [ "$(id -u)" = 0 ]; then
            chown nobody "$temporary"
            as_user=(runuser -u nobody --)
        fi
        cd "$temporary"
        "${as_user[@]}" "$initdb" -D data -U cobra -A trust -E UTF8 --no-sync > /dev/null || stop 'initdb failed'
        server=${initdb%/*}/pg_ctl
        "${as_user[@]}" "$server" -D "$temporary/data" -w -l "$temporary/log" -o "-c listen_addresses= -c unix_socket_directories=$temporary" start > /dev/null ||
            stop 'the server did not start'
        cd "$OLDPWD"
        load=("$python" "$top/collect/postgresql.py" "host=$temporary user=cobra dbname=postgres" --level read-committed)
        say 'the store: PostgreSQL, a new cluster, at read committed' ;;
esac

# A weak store may do well by chance, and then it is tried again.
for seed in 1 2 3 4 5; do
    "${load[@]}" --transactions 400 --keys 10 --seed "$seed" --overwrite "$folder/run.log" || stop 'the load failed'
    status=0
    "$program" audit --explain --workers 1 --part "$folder/small.log" "$folder/run.log" > "$folder/why.txt" || status=$?
    [ "$status" -le 3 ] || stop "the program ended with $status"
    say "run $seed: $(wc -l < "$folder/run.log") lines, $(head -n 1 "$folder/why.txt")"
    [ "$status" -ne 1 ] || break
done
[ "$status" -eq 1 ] || stop 'no run showed a fault of this store: once more'
python3 "$top/tools/picture.py" --program "$program" "$folder/run.log" -o "$folder/why.html" || stop 'no page was made'
[ "$store" = sqlite ] || say "read committed promises less, so this store did nothing wrong: ask audit --level monotonic-atomic-view $folder/run.log"
say "the page is $folder/why.html, for any browser"
