#!/bin/bash
# Runs carbon with these words, on the caller's streams and in the caller's folder: the program that is built, wherever this script was copied
# or linked to. `carbon build` proves the program and builds it. Where sources are newer than the program, standard error says so, and the
# program is run as it was built. Where none is built `serve` builds it first, and all else is answered from the sources with nothing proved. What this script says itself stands on standard error, but for the help and the version. What runs a built program needs
# nothing but bash, and readlink where this script is called by a link to it.
VERSION=1.0

# how many bytes of standard input `rt try` passes on, and how many seconds the program gets there
TRY_BYTES=67108864
TRY_SECONDS=600
# as measured: the seconds of rt before its first proof, those of a proof per 1,000 lines of a crate, and how many lines of the crates below
# it take as long as one of its own
READING=120
PACE=26
BELOW=12
# for how many seconds at most what listens for a line `stop` goes on behind the script
LISTENS_FOR=2
# where the program is not to be had
NO_PROGRAM=127

say() {
    echo "carbon: $*" >&2
}

# Finds the folder of this script, behind all links, and the program: the one that the caller names, that of the sources beside this script,
# or that of an installation.
find_program() {
    local script=${BASH_SOURCE[0]} target
    while [ -L "$script" ] && target=$(readlink "$script"); do
        case $target in
        /*) script=$target ;;
        *) script=$(folder_of "$script")/$target ;;
        esac
    done
    here=$(CDPATH='' cd -P "$(folder_of "$script")" && pwd -P) || exit "$NO_PROGRAM"
    out=$here/crates/carbon/out
    # stands there from the begin of a build to its end, and has the time of the begin
    begun=$out/begun
    # the program that was there at that begin
    before=$out/before
    program=$CARBON_PROGRAM
    [ -n "$program" ] && return
    program=$out/carbon
    [ -e "$begun" ] && [ -x "$before" ] && program=$before
    [ -d "$here/crates" ] || program=${here%/*}/lib/carbon/carbon
}

folder_of() {
    case $1 in
    */*) printf '%s\n' "${1%/*}/" ;;
    *) printf '.\n' ;;
    esac
}

is_built() {
    [ -f "$program" ] && [ -x "$program" ]
}

has_sources() {
    [ -f "$here/crates.txt" ] && [ -d "$here/crates/carbon/src" ]
}

# Finds the sources that are newer than the program. A program from elsewhere is not compared with them.
find_newer() {
    newer=()
    case $program in
    "$out"/*) ;;
    *) return ;;
    esac
    local file
    shopt -s globstar nullglob
    for file in "$here"/crates.txt "$here"/crates/*/{src,specs,proofs}/**/*.{rt,antt}; do
        [ "$file" -nt "$program" ] && newer+=("${file#"$here"/}")
    done
    shopt -u globstar nullglob
}

# Whether a build has something to do.
is_stale() {
    is_built || return 0
    [ -e "$begun" ] && return 0
    find_newer
    [ ${#newer[@]} -gt 0 ]
}

# Says what the program is not built from, and that it is run as it is.
tell_newer() {
    find_newer
    case ${#newer[@]} in
    0) ;;
    1) say "newer than the program, which runs as it was built: ${newer[0]}; \`carbon build\` builds it anew" ;;
    *) say "newer than the program, which runs as it was built: ${newer[0]} and $((${#newer[@]} - 1)) more; \`carbon build\` builds it anew" ;;
    esac
    [ "$program" != "$before" ] || say "a build was begun and has not ended: the program before it runs"
}

# Serves until it is told to stop. The server ends at a line `stop` on its standard input, and at its end, which comes when this script ends
# in any way. SIGTERM, SIGINT and SIGHUP become that line, and what was accepted until then is drained before this script ends, with the
# server's status. A line `stop` on the caller's own input is a SIGTERM; its end stops nothing.
serve() {
    exec 3<&0 4>&1
    stopping=
    trap 'stopping=1' TERM INT HUP
    coproc server { trap '' TERM INT HUP; CARBON_STOPS_AT_END=1 exec "$program" "$@" >&4 3<&- 4>&-; }
    pid=$server_PID
    exec 5>&"${server[1]}"
    # a terminal that a background job may not read counts as an input at its end
    trap '' PIPE TTIN
    # the line end in front ends what the server may have of a line
    trap 'printf "\nstop\n" >&5' TERM INT HUP
    [ -n "$stopping" ] && printf 'stop\n' >&5
    # it holds no end of the server's pipe, nor of what the server writes to
    listen "$$" <&3 3<&- 4>&- 5>&- >/dev/null 2>&1 &
    listener=$!
    while kill -0 "$pid" 2>/dev/null; do
        wait "$pid"
    done
    wait "$pid"
    status=$?
    kill "$listener" 2>/dev/null
    exit "$status"
}

# Waits for a line `stop`, while the script that began this is there to be told.
listen() {
    front=
    while is_child_of "$1"; do
        IFS= read -r -t "$LISTENS_FOR" line
        case $? in
        0)
            [ "$front$line" = stop ] && kill -TERM "$1" && return
            front=
            ;;
        # what has come of a line until the time was over
        12[89] | 1[3-9]? | 2??) front+=$line ;;
        *) return ;;
        esac
    done
}

# Whether this process has that parent. One that has ended has no children, also while nobody has taken note of its end.
is_child_of() {
    local stat
    read -r stat <"/proc/$BASHPID/stat" || return
    # behind the name of the program, which stands in brackets: a state and the parent
    read -r _ stat _ <<<"${stat##*) }"
    [ "$stat" = "$1" ]
}

# Prints how many crates the program has, how many minutes are left, and which crates are at work. `now` is in seconds from the first proof
# on, and `ended` has the second at which each crate was done. It goes as rt does: the crates with the fewest others below them first, one
# for each processor, and each waits for those that it uses.
forecast() {
    awk -v now="$now" -v processors="$(nproc)" -v pace="$PACE" -v part="$BELOW" '
        function visit(crate, used, count, i) {
            if (crate in seen) return
            seen[crate]
            count = split(uses[crate], used, /[ ,]+/)
            for (i = 1; i <= count; i++) if (used[i] in uses) {
                visit(used[i])
                put_below(crate, below[used[i]] " " used[i])
            }
            found[++all] = crate
        }
        function put_below(crate, names, name, count, i) {
            count = split(names, name, " ")
            for (i = 1; i <= count; i++) if (!((crate, name[i]) in is_below)) {
                is_below[crate, name[i]]
                below[crate] = below[crate] " " name[i]
                height[crate]++
                lines_below[crate] += lines[name[i]]
            }
        }
        function sort(high, i) {
            for (high = 0; high < all; high++) for (i = 1; i <= all; i++)
                if (height[found[i]] + 0 == high) order[++sorted] = found[i]
        }
        function run(i) {
            split("", free)
            working = ""
            took = weighed = 0
            for (i = 1; i <= all; i++) take(order[i])
            return ends[order[all]]
        }
        function take(crate, lane, start, used, count, i) {
            lane = 1
            for (i = 2; i <= processors; i++) if (free[i] + 0 < free[lane] + 0) lane = i
            start = free[lane] + 0
            count = split(below[crate], used, " ")
            for (i = 1; i <= count; i++) if (ends[used[i]] > start) start = ends[used[i]]
            free[lane] = ends[crate] = end_of(crate, start, (lines[crate] + lines_below[crate] / part) / 1000)
        }
        function end_of(crate, start, weight, least) {
            # what is kept from an earlier build takes no time, and says nothing of the pace
            if (crate in ended && ended[crate] > start + 3) {
                took += ended[crate] - start
                weighed += weight
            }
            if (crate in ended) return ended[crate]
            if (start <= now) working = working " " crate
            least = now + weight * pace / 10
            return start + weight * pace > least ? start + weight * pace : least
        }
        FILENAME == ARGV[1] { split($2, path, "/"); lines[path[2]] += $1; next }
        FILENAME == ARGV[2] { ended[$1] = $2; next }
        { sub(/#.*/, ""); split($0, half, ":"); if (split(half[1], word, " ")) uses[word[1]] = half[2] }
        END {
            visit("carbon")
            sort()
            run()
            # the measured pace counts as much as that of 4,000 lines
            pace = (4 * pace + took) / (4 + weighed)
            print all, int((run() - now) / 60 + 1), working
        }' <(count_lines) <(printf '%s' "$ended") "$here/crates.txt"
}

count_lines() {
    (cd "$here" && find crates -name out -prune -o -type f \( -name '*.rt' -o -name '*.antt' \) -exec wc -l {} +)
}

# Says how far the build is.
tell() {
    now=$((SECONDS - first_proof))
    [ "$is_proving" ] || [ "$now" -lt -10 ] || now=-10
    read -r all minutes working < <(forecast)
    say "$count of $all crates are proved, about $minutes min left; ${working:+at work: }${working:-rt reads all sources first}"
}

# Starts rt in the program's crate. What it says comes on descriptor 6.
start_rt() {
    exec 6< <(cd "$here/crates/carbon" && exec setsid rt "$@" 2>&1 </dev/null 7>&- 8>&-)
    rt=$!
}

# Takes what rt says until it ends, or until so many crates are proved.
watch_rt() {
    patience=60
    while [ "$count" -lt "$1" ]; do
        IFS= read -r -t "$patience" line <&6
        case $? in
        0) take_line ;;
        1) return ;;
        *)
            tell
            patience=60
            ;;
        esac
    done
}

take_line() {
    printf '%s\n' "$line" >&7
    case $line in
    "== summary") ;;
    "== "*)
        begin_proofs
        count=$((count + 1))
        ended+="${line#== } $((SECONDS - first_proof))"$'\n'
        # what ends within a second is told in one line
        patience=1
        ;;
    "only="*) begin_proofs ;;
    # the crate that was named last
    "logic=not-proved"*) count=$((count - 1)) ;;
    "rt: waiting"*) say "$line" ;;
    esac
}

begin_proofs() {
    [ "$is_proving" ] || first_proof=$SECONDS
    is_proving=1
}

end_rt() {
    kill -- "-$rt" 2>/dev/null
    wait "$rt" 2>/dev/null
}

broken_off() {
    trap '' INT TERM HUP
    end_rt
    say "broken off; what is proved is kept, and the next build goes on from there"
    exit "$1"
}

# Proves the crates below the last one side by side. The last one is left to the command that links it, which proves it anew.
prove_and_link() {
    tell
    start_rt all check --jobs "$(nproc)"
    watch_rt $((all - 1))
    end_rt
    [ "$count" -ge $((all - 1)) ] || return
    tell
    start_rt run -- script
    watch_rt "$all"
    wait "$rt"
}

build() {
    if ! { mkdir -p "$out" && exec 7>>"$out/build.log" 8>"$out/lock"; }; then
        say "the program could not be built, since nothing can be written in $out"
        return 1
    fi
    if ! flock -n 8; then
        say "another build is under way here; waiting for it"
        flock 8
        find_program
        is_stale || return 0
    fi
    # what serves meanwhile
    if [ -x "$out/carbon" ] && [ ! -e "$begun" ]; then
        cp -p "$out/carbon" "$before" || return
    fi
    : >"$begun"
    : >"$out/build.log"
    count=0 ended="" is_proving="" first_proof=$((SECONDS + READING)) started=$SECONDS
    trap 'broken_off 130' INT
    trap 'broken_off 143' TERM
    trap 'broken_off 129' HUP
    prove_and_link
    status=$?
    trap - INT TERM HUP
    # a source that was changed meanwhile is newer than the begin
    [ "$status" = 0 ] && touch -r "$begun" "$out/carbon" && rm -f "$begun" "$before"
    exec 6<&- 7>&- 8>&-
    [ "$status" = 0 ] || show_failure || return
    say "built, in $(((SECONDS - started + 30) / 60)) minutes"
}

# Shows what rt said of the crates that failed, or else what it said last.
show_failure() {
    said=$(awk 'NR == FNR { if (/^[a-z0-9_]+: failed/) failed[$1]; next } /^== / { on = ($2 ":") in failed } on' "$out"/build.log{,})
    echo "${said:-$(cat "$out/build.log")}" | tail -n 40 >&2
    say "the program could not be built; all that rt said is in $out/build.log"
    return 1
}

want_sources() {
    if ! has_sources; then
        say "there are no sources beside this script, in $here"
        exit "$NO_PROGRAM"
    fi
    if ! command -v rt >/dev/null 2>&1; then
        say "rt, the command of the Rattle kit, is not on PATH"
        exit "$NO_PROGRAM"
    fi
}

# Makes a folder with a copy of the sources, in which the program names the caller's folders by their whole paths: rt tries a program in a
# folder of its own, which it removes.
make_room() {
    room=$(mktemp -d) && room=$(cd "$room" && pwd) || exit 1
    trap 'rm -rf "$room"' EXIT
    # no character that a text or a format of Rust takes otherwise
    case $room in
    *[!A-Za-z0-9/._-]*)
        rmdir "$room"
        room=$(mktemp -d /tmp/carbon.XXXXXX) || exit 1
        ;;
    esac
    ln -s "$PWD" "$room/folder" && cp "$here/crates.txt" "$room" || exit 1
    for crate in "$here"/crates/*/; do
        copy=$room/crates/$(basename "$crate")
        mkdir -p "$copy" && cp -R "$crate"src "$copy" || exit 1
    done
    names=crates/carbon/src/host_folder.rt
    sed "s|\(: &str = \"\)\.\";|\1$room/folder\";|; s|\(: &str = \"\)\([a-z]*\";\)|\1$room/folder/\2|" "$here/$names" >"$room/$names"
    [ "$(grep -c ": &str = \"$room/folder" "$room/$names")" = 3 ]
}

# Takes the input of a script whole, since rt takes one that is silent for two seconds as ended.
take_input() {
    : >"$room/input"
    [ "$1" = script ] || return 0
    [ -t 0 ] && say "the answers come after the end of the script, at Ctrl-D"
    head -c $((TRY_BYTES + 1)) >"$room/input" || exit 6
    [ "$(wc -c <"$room/input")" -le "$TRY_BYTES" ]
}

try_program() {
    (cd "$room/crates/carbon" && TMPDIR=$room RT_SECONDS=$TRY_SECONDS exec rt try carbon -- "$@") \
        <"$room/input" >"$room/answer" 2>"$room/said" &
    rt=$!
    trap 'end_try 130' INT
    trap 'end_try 143' TERM
    trap 'end_try 129' HUP
    wait "$rt"
}

end_try() {
    kill "$rt" 2>/dev/null
    wait "$rt"
    exit "$1"
}

# Answers from the sources, with nothing proved.
answer_unproved() {
    want_sources
    now=-$READING ended=""
    read -r _ minutes _ < <(forecast)
    say "$1, so this answer is not from proved code: it takes about two minutes, in which rt compiles the sources with checks"
    say "\`$0 build\` proves and builds the program, from nothing in about $minutes minutes, and then answers come at once"
    shift
    make_room || give_up "main.rt does not name the program's folders as this script expects"
    take_input "$@" || give_up "the input is longer than the $TRY_BYTES bytes that rt takes"
    try_program "$@"
    status=$?
    if [ "$status" = 0 ] || grep -q '^run=ended ' "$room/said"; then
        sed -n 's/^rt: /carbon: rt: /p' "$room/said" >&2
        cat "$room/answer" || exit 7
        exit "$status"
    fi
    sed 's/^\(rt: \)*/carbon: rt: /' "$room/said" >&2
    [ "$status" = 2 ] && give_up "rt could not run the sources"
    say "there is no answer; what was drained until then is in the files"
    exit 1
}

give_up() {
    say "$1; \`$0 build\` builds the program, which can answer this"
    exit 1
}

# Answers from the sources as they are, whatever is built.
try_sources() {
    case $1 in
    serve | "") give_up "from the sources alone nothing is served" ;;
    *) answer_unproved "the sources are tried as they are" "$@" ;;
    esac
}

build_alone() {
    if [ $# -gt 0 ]; then
        say "build takes no more words"
        exit 2
    fi
    CARBON_PROGRAM=
    find_program
    want_sources
    if ! is_stale; then
        say "the program is built, and no source has changed since"
        exit 0
    fi
    build
    exit
}

# Runs the program that is built, as it is.
run_program() {
    tell_newer
    [ "$1" = serve ] && serve "$@"
    exec "$program" "$@"
}

# Whether the launcher may build a program where there is none: not for a service's start, which would be away for as long as the proofs take.
may_build() {
    [ "$CARBON_BUILD" != never ] && [ -z "$CARBON_PROGRAM" ] && has_sources && [ ! -e "$program" ] && command -v rt >/dev/null 2>&1
}

# Builds the program where there is none, and serves.
build_and_serve() {
    say "a daemon wants a built program, and none is built: it is built first, which takes long"
    build || exit 1
    find_program
    run_program "$@"
}

refuse_to_serve() {
    say "a daemon wants a built program, and $program is not there, or may not be run"
    has_sources && say "\`$0 build\` proves the sources here and builds it; then start the daemon again"
    exit "$NO_PROGRAM"
}

# What --help prints. The man page is made of these texts (packaging/man.py), in whose form they stand: a title, the usage, and then paragraphs and
# lists, whose terms have two blanks before them and two or more behind.
HELP='carbon - storage daemon and render API of Graphite, in one program

Usage: carbon COMMAND [WORDS]
       carbon help [COMMAND]

carbon takes metric lines such as `servers.web01.load 0.42 1700000000`, keeps
them in ring files, and draws series from them for dashboards. It runs in the
folder in which it is started, and no second carbon runs there meanwhile.

Commands:
  serve [OPTIONS]     Take metric lines and answer HTTP until told to stop.
  script [OPTIONS]    Run metric lines, questions and drains from standard
                      input.
  sample START COUNT  Run a script of COUNT metric lines, made from START.
  build               Prove the sources, and build the program of them.
  try COMMAND         Answer `script` or `sample` from the sources as they are,
                      with nothing proved.
  help [COMMAND]      Show this text, or that of a command. So does --help.
  --version           Show the version, and where the program is.

Files:
  conf/storage-schemas.conf
                      The archives of new metrics. Read at the start.
  conf/storage-aggregation.conf
                      Their methods and factors. Read at the start.
  conf/aggregation-rules.conf
                      What `serve` makes of points as they come. Read at its
                      start.
  data                The ring files, data/CLASS/NAME.ring.

Environment:
  CARBON_BUILD        `never`: `serve` builds no program where none is built.
  CARBON_PROGRAM      The program to run, in place of the one that is found:
                      crates/carbon/out/carbon beside the launcher of a
                      repository, ../lib/carbon/carbon beside any other.

Exit status:
  0                   All went well: all points are in the ring files.
  1                   `build` or `try` failed.
  2                   The words are no command.
  3                   A rule file is refused.
  4                   A ring file is damaged, or the log of a drain.
  5                   A disk failed, at the start or in the drain at the end.
  6                   Standard input could not be read.
  7                   Something could not be written.
  8                   Memory ran out.
  9                   A port could not be had.
  10                  What a run may take is spent.
  12                  Another carbon runs in this folder, or over its data.
  13                  There are too few file descriptors or threads.
  127                 There is no program to run.'

SERVE_HELP='carbon serve - take metric lines and answer HTTP until told to stop

Usage: carbon serve [OPTIONS]

Metric lines come over TCP in the plaintext protocol of Graphite; /render and
the /metrics of its API are answered over HTTP. SIGTERM, SIGINT, SIGHUP or a
line `stop` on standard input ends it: it takes what is still coming, drains
all that is pending, and prints `stored S replaced R full F drains D`. SIGKILL
to the program loses what is pending.

Options:
  --line-port P       The port of metric lines: 0 to 65535, 0 for any free one.
                      [2003]
  --http-port P       The port of HTTP, likewise. [8080]
  --line-host A       An IPv4 address of this machine at which metric lines are
                      taken, and at no other. Up to 16 times. [0.0.0.0]
  --http-host A       The same for HTTP: 127.0.0.1 keeps it to this machine.
                      [0.0.0.0]
  --receivers N       Connections of metric lines at once: 1 to 256. [16]
  --renderers N       Connections of HTTP at once: 1 to 256. [16]
  --limit N           Pending points of each of sixteen classes: 1 to 10000000.
                      [262144]
  --order O           Which metric is drained next: sorted, naive, max or
                      timesorted. [sorted]
  --redo              Each drain goes through a log, so that a crash or a power
                      failure leaves whole drains.
  --line-patience S   Seconds after which a silent connection of metric lines
                      is closed: 0 to 86400, 0 for never. [900]
  --links N           Connections after which each port closes: 0 to
                      1000000000, 0 for never. For trials. [0]
  --answer-bytes N    Bytes that one question may take: 1048576 to
                      1099511627776. [268435456]
  --drainers N        Threads that drain: 1 to 16. [1]
  --pace N            Drains a second of each drainer: 0 to 1000000, 0 for as
                      many as it can. [0]
  --creates N         New ring files a second of each drainer: 0 to 1000000, 0
                      for as many as it can. [0]'

SCRIPT_HELP='carbon script - run metric lines, questions and drains from standard input

Usage: carbon script [OPTIONS]

A line that begins with `!` is a command, any other a metric line. `!clock N`
sets the clock, `!ask QUERY` asks as /render does, `!drain` writes all that is
pending. At the end of the input all is drained and a summary is printed. Until
a program is built, the answer comes from the sources, with nothing proved.

Options:
  --limit N           Pending points of each of sixteen classes: 1 to 10000000.
                      [262144]
  --order O           Which metric is drained next: sorted, naive, max or
                      timesorted. [sorted]
  --redo              Each drain goes through a log, so that a crash or a power
                      failure leaves whole drains.'

SAMPLE_HELP='carbon sample - run a script that is made from a number

Usage: carbon sample START COUNT [OPTIONS]

The script has COUNT metric lines of 100 metrics, 1 to 1000000, which are made
from the number START, 0 to 9999999999. What its one question shows is printed,
and the summary.

Options:
  --limit N           As of `script`.
  --order O           As of `script`.
  --redo              As of `script`.'

BUILD_HELP='carbon build - prove the sources, and build the program of them

Usage: carbon build

Wants the sources beside the launcher, and rt of the Rattle kit on PATH. From
nothing it takes long, and says how long; what is proved is kept when it is
broken off. The program that was built before serves meanwhile.'

TRY_HELP='carbon try - answer from the sources as they are, with nothing proved

Usage: carbon try script [OPTIONS]
       carbon try sample START COUNT [OPTIONS]

Wants the sources beside the launcher, and rt of the Rattle kit on PATH. It
takes about two minutes, in which rt compiles the sources with checks.'

help_on() {
    case $1 in
    "" | help | --help) printf '%s\n' "$HELP" ;;
    serve) printf '%s\n' "$SERVE_HELP" ;;
    script) printf '%s\n' "$SCRIPT_HELP" ;;
    sample) printf '%s\n' "$SAMPLE_HELP" ;;
    build) printf '%s\n' "$BUILD_HELP" ;;
    try) printf '%s\n' "$TRY_HELP" ;;
    *)
        say "there is no command $1; \`carbon help\` names those that there are"
        exit 2
        ;;
    esac || exit 7
    exit 0
}

# Whether one of the words behind a command asks for help.
wants_help() {
    local word
    for word in "$@"; do
        [ "$word" = -- ] && return 1
        [ "$word" = --help ] && return 0
    done
    return 1
}

tell_version() {
    local found="no program is built"
    is_built && found="program $program"
    printf 'carbon %s\n%s\n' "$VERSION" "$found" || exit 7
    is_built && tell_newer
    exit 0
}

find_program
# the help of a command stands where any of its words asks for it
[ $# -gt 1 ] && wants_help "${@:2}" && help_on "$1"
case $1 in
--help | -h) help_on ;;
help) help_on "$2" ;;
--version) tell_version ;;
build) build_alone "${@:2}" ;;
try) try_sources "${@:2}" ;;
*)
    is_built && run_program "$@"
    [ "$1" = serve ] && may_build && build_and_serve "$@"
    { [ "$1" = serve ] || ! has_sources; } && refuse_to_serve
    answer_unproved "nothing is built yet" "$@"
    ;;
esac
