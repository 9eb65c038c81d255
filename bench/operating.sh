#!/bin/bash
# The walk of docs/OPERATING.md: every command of it over clean folders, and what it is to print.
#
# Usage: bench/operating.sh [WORD]     (all steps without a word; else those whose name holds it)
#
# Each command and text is looked for in the document first, so that both stay the same; then it is run, with other folders in place of
# /var/lib/carbon and /opt/carbon. The ports are the usual ones, in a network of their own (`unshare`). It wants curl, python3 and the built program
# (./carbon build), and no rights but those of its user. A step prints `ok` or what it found instead; the exit status is 1 where one did.
top=$(cd "$(dirname "$0")/.." && pwd)
document=$(tr -s ' \n' ' ' <"$top/docs/OPERATING.md")
carbon=$top/carbon
program=${CARBON_PROGRAM:-$top/crates/carbon/out/carbon}
only=$1

if [ -z "$CARBON_WALK" ]; then
    [ -x "$program" ] || { echo "no program yet; run ./carbon build" >&2 && exit 2; }
    CARBON_WALK=1 exec unshare --map-root-user --net --mount "$0" "$@"
fi
ip link set lo up || exit 2
room=$(mktemp -d)
trap 'end_daemon KILL; rm -rf "$room"' EXIT
failed=0
daemon=

# What is told.

differs() {
    wrong+="${wrong:+; }$*"
}

# A text or a command that the document has to have, wherever its lines end.
says() {
    case $document in
    *"$1"*) ;;
    *) differs "the document does not say: $1" ;;
    esac
}

want() {
    [ "$2" = "$3" ] || differs "$1: '$3', not '$2'"
}

want_in() {
    case $3 in
    *"$2"*) ;;
    *) differs "$1: no '$2' in '$3'" ;;
    esac
}

step() {
    local name=$1
    case ${name//_/ } in *"$only"*) ;; *) return ;; esac
    place=$(mktemp -d "$room/XXXXXX")
    mkdir "$place/conf"
    wrong=
    "$name"
    end_daemon KILL
    if [ -z "$wrong" ]; then
        printf '%-75s ok\n' "${name//_/ }"
    else
        printf '%-75s NOT SO: %s\n' "${name//_/ }" "$wrong"
        failed=1
    fi
}

# The daemon.

# Starts it in the step's folder, by the words of the document.
serve() {
    says ' mkdir -p /var/lib/carbon/conf && cd /var/lib/carbon && /opt/carbon/carbon serve'
    : >"$place/err"
    (cd "$place" && exec "$carbon" serve "$@") >"$place/out" 2>"$place/err" </dev/null &
    daemon=$!
    until_so 300 is_ready
}

is_ready() {
    grep -q '^carbon: lines on' "$place/err" || ! kill -0 "$daemon" 2>/dev/null
}

# Waits for a command to succeed, so many times 0.1 s at most.
until_so() {
    local turns=$1
    shift
    while ! "$@"; do
        turns=$((turns - 1))
        [ "$turns" -gt 0 ] || return 1
        sleep 0.1
    done
}

# Signals the launcher, and takes the status and the last line.
end_daemon() {
    [ -n "$daemon" ] || return
    kill -"$1" "$daemon" 2>/dev/null
    wait "$daemon" 2>/dev/null
    status=$?
    daemon=
    last=$(tail -n 1 "$place/out")
    [ "$1" != KILL ] || until_so 100 is_unlocked
}

# Whether no carbon holds the folder any more.
is_unlocked() {
    flock -n "$place" true
}

stops_with() {
    end_daemon TERM
    want "the status of the stop" 0 "$status"
    want "its last line" "$1" "$last"
}

# A start that ends by itself.
ends_with() {
    local wanted_status=$1 wanted_line=$2
    shift 2
    local out
    out=$(cd "$place" && timeout 20 "$carbon" serve "$@" 2>"$place/err" </dev/null)
    want "the status of serve $*" "$wanted_status" "$?"
    want "the line of serve $*" "$wanted_line" "${out##*$'\n'}"
}

send() {
    printf '%s\n' "$@" >/dev/tcp/127.0.0.1/2003
}

ask() {
    curl -s -g "http://127.0.0.1:8080$1" "${@:2}"
}

code_of() {
    curl -s -g -o /dev/null -w '%{http_code}' "http://127.0.0.1:8080$1" "${@:2}"
}

# The last value that a target shows.
last_of() {
    ask "/render?target=$1&from=-10min&format=raw" | sed 's/,None//g; s/.*[|,]//'
}

shows() {
    [ "$(last_of "$1")" = "$2" ]
}

want_shown() {
    until_so 50 shows "$1" "$2" || differs "$1 shows '$(last_of "$1")', not '$2'"
}

told() {
    grep -qF -- "$1" "$place/err"
}

want_told() {
    until_so 100 told "$1" || differs "standard error has no '$1': $(cat "$place/err")"
}

# The class of a name, by the command of the document.
class_of() {
    local command
    command=$(grep -o "python3 -c 'import functools.*' servers.web02.load" "$top/docs/OPERATING.md")
    eval "${command/servers.web02.load/$1}"
}

ring_of() {
    echo "$place/data/$(class_of "$1")/${1//.//}.ring"
}

# A Whisper file of an archive of 60 steps of a minute, whose last value is 4.5.
write_whisper() {
    mkdir -p "$1/servers/web01"
    python3 - "$1/servers/web01/load.wsp" <<'END'
import struct, sys, time
now = int(time.time()) // 60 * 60
with open(sys.argv[1], "wb") as file:
    file.write(struct.pack(">2LfL", 4, 3600, 0.25, 1) + struct.pack(">3L", 28, 60, 60))
    file.write(b"".join(struct.pack(">Ld", now - 60 * (59 - k), 4.5) for k in range(60)))
END
}

# A number with commas, as the document has it.
with_commas() {
    sed ':again; s/\B[0-9]\{3\}\>/,&/; t again' <<<"$1"
}

# What stands in the document as a block: commands that the steps below have, those of a Debian package (bench/package.py), a text that a step looks
# for, and parts of a relay's configuration.
BLOCKS='
mkdir -p /var/lib/carbon/conf && cd /var/lib/carbon && /opt/carbon/carbon serve
python3 -c
examples/import_whisper.py --into /var/lib/carbon /var/lib/graphite/whisper
examples/import_whisper.py --script --by-rules /var/lib/graphite/whisper | ./carbon script
dpkg -i carbon_*.deb
systemctl enable --now carbon
carbon: out of memory, status 503:
cluster carbon
forward
fnv1a_ch
127.0.0.1:2004
10.0.0.1:2003
10.0.0.2:2003
;
match * send to carbon
'

# The steps, in the order of the document.

no_command_of_the_document_is_left_out() {
    local line known
    while read -r line; do
        while read -r known; do
            [ -n "$known" ] && [ "${line#"$known"}" != "$line" ] && continue 2
        done <<<"$BLOCKS"
        differs "no step has: $line"
    done < <(grep -E '^ {4}' "$top/docs/OPERATING.md")
}

the_daemon_starts_in_its_folder_and_says_its_ports() {
    says '`carbon: lines on 2003, HTTP on 8080`'
    serve
    want "standard error" "carbon: lines on 2003, HTTP on 8080" "$(cat "$place/err")"
    [ -d "$place/data" ] || differs "there is no folder data"
    stops_with "stored 0 replaced 0 full 0 drains 0"
}

the_launcher_has_help_and_runs_what_it_is_linked_to() {
    says '`carbon --help` and `carbon serve --help`'
    want "the first line" "carbon - storage daemon and render API of Graphite, in one program" "$("$carbon" --help | head -n 1)"
    says '/usr/local/bin/carbon'
    ln -s "$carbon" "$place/carbon"
    want "the program" "$("$carbon" --version)" "$("$place/carbon" --version)"
    says '`bin/carbon` with the program as `lib/carbon/carbon`'
    mkdir -p "$place/bin" "$place/lib/carbon"
    cp "$carbon" "$place/bin/carbon"
    cp "$program" "$place/lib/carbon/carbon"
    want "an installed one" "program $place/lib/carbon/carbon" "$(CARBON_PROGRAM='' "$place/bin/carbon" --version | tail -n 1)"
}

each_option_is_taken_at_its_ends_and_refused_beyond() {
    local option good bad value out
    while read -r option good bad; do
        says "| \`--$option"
        for value in ${good//,/ }; do
            (sleep 0.5 && echo stop) | (cd "$place" && "$carbon" serve "--$option" "$value" >"$place/out" 2>"$place/err")
            want "--$option $value" "0 stored 0 replaced 0 full 0 drains 0" "$? $(cat "$place/out")"
        done
        for value in ${bad//,/ }; do
            out=$(cd "$place" && "$carbon" serve "--$option" "$value" 2>/dev/null </dev/null)
            want "--$option $value" "2 carbon: usage" "$? $out"
        done
    done <<'END'
line-port 0,65535 65536
http-port 0,65535 65536
line-host 127.0.0.1,0.0.0.0 127.0.0.256,localhost
http-host 127.0.0.1,0.0.0.0 127.0.0.01,::1
receivers 1,256 0,257
renderers 1,256 0,257
limit 1,10000000 0,10000001
order sorted,naive,max,timesorted none
line-patience 0,86400 86401
links 0 1000000001
answer-bytes 1048576,1099511627776 1048575
drainers 1,16 0,17
pace 0,1000000 1000001
creates 0,1000000 1000001
END
}

a_port_of_0_is_any_free_one() {
    says '0 takes any free one, which the line on standard error tells'
    serve --line-port 0 --http-port 0
    grep -qE '^carbon: lines on [1-9][0-9]*, HTTP on [1-9][0-9]*$' "$place/err" || differs "$(cat "$place/err")"
    stops_with "stored 0 replaced 0 full 0 drains 0"
}

a_question_that_takes_too_much_is_told_on_standard_error() {
    says 'carbon: out of memory, status 503: GET /render?target=servers.*.*&from=-30d HTTP/1.1 (12 questions since the last line)'
    serve --answer-bytes 1048576
    local k lines=()
    for ((k = 0; k < 20; k++)); do lines+=("servers.web$k.load 1 -1"); done
    send "${lines[@]}"
    want_shown 'servers.web19.load' 1.0
    want "the status" 503 "$(code_of '/render?target=servers.*.*&from=-30d')"
    want_told 'carbon: out of memory, status 503: GET /render?target=servers.*.*&from=-30d HTTP/1.1'
    want "a smaller question" 200 "$(code_of '/render?target=servers.web0.load&from=-10min')"
    stops_with "stored 20 replaced 0 full 0 drains 20"
}

points_come_in_and_are_asked_for_by_curl() {
    says "\`curl -g 'http://HOST:8080/render?target=servers.*.load&from=-10min&format=raw'\` shows whether points come in."
    serve
    send "servers.web01.load 0.42 $(date +%s)" "servers.web02.load 7 -1"
    want_shown 'servers.web01.load' 0.42
    local shown
    shown=$(curl -s -g 'http://127.0.0.1:8080/render?target=servers.*.load&from=-10min&format=raw')
    want "the series" "servers.web01.load servers.web02.load" "$(echo $(cut -d, -f1 <<<"$shown"))"
    want "nothing to stdout" "" "$(cat "$place/out")"
    stops_with "stored 2 replaced 0 full 0 drains 2"
}

lines_that_are_none_are_passed_over_and_a_full_class_is_counted() {
    says 'a point of a new time where its class has `--limit` points pending. The last line, at the stop, says how many'
    serve --limit 1 --pace 1
    local now k
    now=$(date +%s)
    for ((k = 0; k < 10; k++)); do send "a.b $k $((now - 60 * k))"; done
    send "two fields" "a..b 1 $now" "a.b x $now" "a.b 1 then"
    sleep 0.5
    end_daemon TERM
    local full
    full=$(sed -n 's/^stored .* full \([0-9]*\) drains .*/\1/p' <<<"$last")
    [ "${full:-0}" -gt 0 ] || differs "the last line: '$last'"
}

grafana_is_answered() {
    serve
    send 'servers.web01.load 0.42 -1'
    want_shown servers.web01.load 0.42
    says '`POST /render`, a form with `target`, `from`, `until`, `format=json`, `maxDataPoints`'
    local form
    form=$(ask /render -d 'target=servers.web01.load' -d from=-1h -d until=now -d format=json -d maxDataPoints=100)
    want_in "a panel" '[{"target": "servers.web01.load", "datapoints": [[' "$form"
    says '400, `target 1: unknown function`'
    want "a test of the source" "target 1: unknown function 400" "$(ask /render -d 'target=constantLine(100)') $(code_of /render -d 'target=constantLine(100)')"
    says '`/metrics/find`, `/metrics/expand`, as forms or with a query'
    want_in "find" '"text": "web01"' "$(ask '/metrics/find?query=servers.*')"
    want "find, as a form" "$(ask '/metrics/find?query=servers.*')" "$(ask /metrics/find -d 'query=servers.*')"
    want "expand" '{"results": ["servers.web01.load"]}' "$(ask '/metrics/expand?query=servers.*.*')"
    says '`/metrics/index.json`'
    want "the index" '["servers.web01.load"]' "$(ask /metrics/index.json)"
    says '`/functions`, `/version`, `/tags/..`, `/events/get_data`'
    for target in /functions /version /tags/autoComplete/tags /events/get_data; do
        want "$target" 404 "$(code_of "$target")"
    done
    stops_with "stored 1 replaced 0 full 0 drains 1"
}

ring_files_have_the_lengths_that_are_planned() {
    local retentions length
    while read -r retentions length; do
        says "= $(with_commas "$length") |"
        rm -rf "${place:?}/data" "$place/conf/storage-schemas.conf"
        # the first row is that of no rules
        if [ "$retentions" != none ]; then
            says "| \`$retentions\` |"
            printf '[all]\npattern = .*\nretentions = %s\n' "$retentions" >"$place/conf/storage-schemas.conf"
        fi
        echo "a.b 1 1700000000" | (cd "$place" && "$carbon" script >/dev/null)
        want "the file of $retentions" "$length" "$(stat -c %s "$(ring_of a.b)")"
    done <<'END'
none 201628
60s:1d,5m:30d,1h:5y 1077652
10s:6h,1m:7d,10m:1y 1296052
10s:1d,1m:30d,10m:2y 3139252
END
}

files_are_backed_up_restored_and_renamed() {
    says '`ls data/*/servers/web01/load.ring` finds it'
    says 'stop carbon and copy `data` and `conf`'
    serve
    send 'servers.web01.load 0.42 -1'
    want_shown servers.web01.load 0.42
    stops_with "stored 1 replaced 0 full 0 drains 1"
    want "the file" "data/$(class_of servers.web01.load)/servers/web01/load.ring" "$(cd "$place" && ls data/*/servers/web01/load.ring)"
    mkdir "$place/backup"
    cp -a "$place/data" "$place/conf" "$place/backup"
    rm -r "${place:?}/data"
    cp -a "$place/backup/data" "$place"
    serve
    want_shown servers.web01.load 0.42
    stops_with "stored 0 replaced 0 full 0 drains 0"
    says 'servers.web02.load'
    mkdir -p "$(dirname "$(ring_of servers.web02.load)")"
    mv "$(ring_of servers.web01.load)" "$(ring_of servers.web02.load)"
    serve
    want_shown servers.web02.load 0.42
    want "the names" '["servers.web02.load"]' "$(ask /metrics/index.json)"
    stops_with "stored 0 replaced 0 full 0 drains 0"
}

a_backup_while_it_runs_is_a_copy_of_a_snapshot() {
    says 'copy from a snapshot of the file system, which is as good as a kill at that moment'
    serve
    send 'a.b 5 -1'
    want_shown a.b 5.0
    sleep 0.5
    end_daemon KILL
    serve
    want_shown a.b 5.0
    stops_with "stored 0 replaced 0 full 0 drains 0"
}

whisper_files_are_taken_over() {
    says ' examples/import_whisper.py --into /var/lib/carbon /var/lib/graphite/whisper'
    write_whisper "$place/whisper"
    local said
    said=$("$top/examples/import_whisper.py" --into "$place" "$place/whisper" 2>&1)
    want "its status and words" "0 import_whisper: 60 points of 1 metrics, 0 of them rounded to thousandths; left out: 0 points, 0 names, 0 files; 0 points are nan, 0 other files" "$? $said"
    want "the head" "00000204 00000e10 0003d090 00000001" "$(od -A n -t x1 -N 16 "$(ring_of servers.web01.load)" | tr -d ' \n' | sed 's/......../& /g; s/ $//')"
    serve
    want_shown servers.web01.load 4.5
    stops_with "stored 0 replaced 0 full 0 drains 0"
    says ' examples/import_whisper.py --script --by-rules /var/lib/graphite/whisper | ./carbon script'
    rm -r "${place:?}/data"
    said=$(cd "$place" && "$top/examples/import_whisper.py" --script whisper 2>/dev/null)
    want "without --by-rules" "2 " "$? $said"
    (cd "$place" && "$top/examples/import_whisper.py" --script --by-rules whisper 2>/dev/null | "$carbon" script >"$place/out")
    want_in "the script" "stored 60 replaced 0" "$(tail -n 1 "$place/out")"
    serve
    want_shown servers.web01.load 4.5
    stops_with "stored 0 replaced 0 full 0 drains 0"
}

# A file under a running daemon, one way after the other.
a_file_that_is_removed_is_told_and_drained_once_it_is_back() {
    says '| `carbon: data/K/NAME: removed or replaced while it was in use; ..` | put the file back'
    serve
    send 'a.b 5 -1'
    until_so 50 test -s "$(ring_of a.b)"
    stops_with "stored 1 replaced 0 full 0 drains 1"
    serve
    mv "$(ring_of a.b)" "$place/kept"
    send 'a.b 6 -1'
    want_told "carbon: data/$(class_of a.b)/a/b.ring: removed or replaced while it was in use; "
    want "a question that reads it" 500 "$(code_of '/render?target=a.b&from=-1h')"
    mv "$place/kept" "$(ring_of a.b)"
    stops_with "stored 1 replaced 0 full 0 drains 1"
}

a_file_that_is_cut_is_told_and_drained_once_it_is_back() {
    says '| `carbon: data/K/NAME: shorter than it was; ..` | put the whole file back'
    serve
    send 'a.b 5 -1'
    until_so 50 test -s "$(ring_of a.b)"
    stops_with "stored 1 replaced 0 full 0 drains 1"
    cp -p "$(ring_of a.b)" "$place/kept"
    serve
    truncate -s 30 "$(ring_of a.b)"
    send 'a.b 6 -1'
    want_told "carbon: data/$(class_of a.b)/a/b.ring: shorter than it was; "
    end_daemon TERM
    want "the status of the stop" 5 "$status"
    want "its last line" "carbon: disk fault class $((10#$(class_of a.b)))" "$last"
    cp -p "$place/kept" "$(ring_of a.b)"
    serve
    want_shown a.b 5.0
    stops_with "stored 0 replaced 0 full 0 drains 0"
}

a_file_that_is_put_back_while_it_runs_is_read_at_the_next_start() {
    says '| `carbon: data/K/NAME: a file is there ..` | a file was put back of which carbon knew nothing at its start: start again, and it is read. '
    serve
    send 'a.b 5 -1'
    until_so 50 test -s "$(ring_of a.b)"
    stops_with "stored 1 replaced 0 full 0 drains 1"
    mv "$(ring_of a.b)" "$place/kept"
    serve
    cp -p "$place/kept" "$(ring_of a.b)"
    send "a.b 6 $(($(date +%s) - 120))"
    want_told "carbon: data/$(class_of a.b)/a/b.ring: a file is there "
    end_daemon TERM
    want "the status of the stop" 5 "$status"
    serve
    want_shown a.b 5.0
    stops_with "stored 0 replaced 0 full 0 drains 0"
}

links_and_pipes_below_data_are_told() {
    says '`carbon: data/K: it has NAME, which is neither a plain file nor a folder`'
    local class
    class=$(class_of a.b)
    mkdir -p "$place/data/$class"
    ln -s "$place/conf" "$place/data/$class/a"
    ends_with 5 "carbon: disk fault class $((10#$class))"
    want_in "standard error" "carbon: data/$class: it has a, which is neither a plain file nor a folder" "$(cat "$place/err")"
}

a_full_disk_is_told_with_the_reason_of_the_system() {
    says '| `carbon: data/K/NAME: No space left on device (os error 28)`, and others of the system'
    mkdir "$place/data"
    mount -t tmpfs -o size=1m,mode=755 carbon "$place/data" || return
    serve
    local k lines=()
    for ((k = 0; k < 600; k++)); do lines+=("m.n$k 1 -1"); done
    send "${lines[@]}"
    want_told "No space left on device (os error 28)"
    want_shown m.n599 1.0
    mount -o remount,size=100m "$place/data"
    end_daemon TERM
    want "the status of the stop" 0 "$status"
    want_in "its last line" "stored 600 replaced 0 full 0 drains " "$last"
    umount "$place/data"
}

signals_to_the_launcher_and_a_line_stop_lose_nothing() {
    says '| SIGTERM, SIGINT or SIGHUP to the launcher `./carbon serve`, or its end in any way; a line `stop`'
    says '`stored S replaced R full F drains D`. Status 0: every accepted point is in its file'
    local signal
    for signal in TERM HUP; do
        rm -rf "${place:?}/data"
        serve
        send 'a.b 5 -1'
        end_daemon "$signal"
        want "the end by $signal" "0 stored 1 replaced 0 full 0 drains 1" "$status $last"
        [ -s "$(ring_of a.b)" ] || differs "there is no file after $signal"
    done
    (sleep 1; echo stop) | (cd "$place" && "$carbon" serve >"$place/out" 2>"$place/err")
    want "the end by a line" "0 stored 0 replaced 0 full 0 drains 0" "$? $(cat "$place/out")"
    rm -rf "${place:?}/data"
    serve
    send 'a.b 5 -1'
    want_shown a.b 5.0
    kill -KILL "$daemon"
    wait "$daemon" 2>/dev/null
    daemon=
    until_so 100 is_unlocked || differs "the program goes on without its launcher"
    [ -s "$(ring_of a.b)" ] || differs "there is no file after the launcher's end"
}

a_kill_of_the_program_loses_what_is_pending_alone() {
    says '| `kill -9` of the program'
    serve --pace 1
    send 'a.b 5 -1'
    want_shown a.b 5.0
    sleep 2
    local child
    for child in $(cat "/proc/$daemon/task/$daemon/children"); do
        # the other child is bash, and listens for a line `stop`
        [ "/proc/$child/exe" -ef "/proc/$daemon/exe" ] || kill -KILL "$child"
    done
    wait "$daemon" 2>/dev/null
    want "the status of the launcher" 137 "$?"
    daemon=
    serve
    want_shown a.b 5.0
    stops_with "stored 0 replaced 0 full 0 drains 0"
}

each_status_has_its_line() {
    says '| 2 `carbon: usage` | mend the words |'
    ends_with 2 "carbon: usage" --ports
    says '| 3 `carbon: FILE ..`'
    printf '[all]\npattern = .*\nretentions = 60s:1d,70s:2d\n' >"$place/conf/storage-schemas.conf"
    ends_with 3 "carbon: storage-schemas.conf section 1: bad layout"
    printf '[all]\nno key\n' >"$place/conf/storage-schemas.conf"
    ends_with 3 "carbon: storage-schemas.conf line 2"
    rm "$place/conf/storage-schemas.conf"
    says '| 4 `carbon: damaged file NAME` | move the file away (`data/*/NAME`)'
    mkdir -p "$(dirname "$(ring_of a.b)")"
    echo "no ring file, but longer than a head" >"$(ring_of a.b)"
    ends_with 4 "carbon: damaged file a/b.ring"
    rm -r "${place:?}/data"
    says '| 5 | `disk fault class K` at the start'
    touch "$place/data"
    ends_with 5 "carbon: disk fault class 0"
    rm "$place/data"
    says '| 9 `carbon: no port` | a port is taken'
    serve
    (
        place=$(mktemp -d "$room/XXXXXX")
        ends_with 9 "carbon: no port"
        echo "$wrong"
    ) >"$room/port"
    wrong=$(cat "$room/port")
    says '| 12 `carbon: folder in use`'
    local out
    out=$(cd "$place" && "$carbon" script </dev/null 2>/dev/null)
    want "a second carbon" "12 carbon: folder in use" "$? $out"
    stops_with "stored 0 replaced 0 full 0 drains 0"
    says '| 13 `carbon: file descriptors: ..` | a higher `ulimit -n`'
    (
        ulimit -n 300
        ends_with 13 "carbon: file descriptors: 333 needed, 300 given"
        echo "$wrong"
    ) >"$room/few"
    wrong=$(cat "$room/few")
    says '| 127 `carbon: a daemon wants a built program, ..` |'
    CARBON_PROGRAM=$place/none ends_with 127 ""
    want_in "standard error" "carbon: a daemon wants a built program, and $place/none is not there" "$(cat "$place/err")"
}

many_connections_want_descriptors() {
    says 'so 333 without options and 813 at most'
    ulimit -n 813
    serve --receivers 256 --renderers 256
    stops_with "stored 0 replaced 0 full 0 drains 0"
}

for name in $(sed -n '/^# The steps/,$s/^\([a-z_0-9]*\)() {$/\1/p' "$0"); do
    step "$name"
done
exit "$failed"
