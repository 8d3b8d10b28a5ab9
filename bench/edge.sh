#!/usr/bin/env bash
# Tries on real folders what no clause says of them: edge.sh PROGRAM
# The program is tried as an enemy would: with closed and full standard input and output, two runs at once, links,
# files that aren't its own, folders that can't be made, read or written, few descriptors, a full disk, a limit on the
# size of files, calls that a signal interrupts or that fail, and signals. Each try says what it wanted, and what it saw
# where that was something else. Tries that need strace or the rights of root are left out, with a line that says so,
# where these lack. It works below TMPDIR: on a disk it waits for thousands of fsyncs, in /dev/shm for none.
set -u
work=$(mktemp -d)
program=$work/program
cp "$1" "$program"
chmod -R a+rX "$work"
missed=0
tries=0
trap 'umount "$work/full" 2>/dev/null; rm -rf "$work"' EXIT

# ---- what a run says and leaves

# enter NAME: a new folder for a try, the current one from now on
enter() {
    name=$1
    folder=$work/tries/$name
    mkdir -p "$folder"
    cd "$folder" || exit 1
}

# run WORD..: runs the program, or what stands before it in `with`, on standard input. Keeps its number and lines.
run() {
    { "${patient[@]}" "${with[@]}" "$program" "$@" >"$work/said" 2>"$work/told"; } 2>/dev/null
    number=$?
}
patient=(timeout 300)
with=(env)

# keeps: what stands in the servers' folders, files with their bytes
keeps() {
    find s[0-9][0-9] -printf '%y %p %l\n' 2>/dev/null | sort
    find s[0-9][0-9] -type f -exec cksum {} + 2>/dev/null | sort
}

# wants WHAT CONDITION..: tells whether the try went as wanted
wants() {
    tries=$((tries + 1))
    local what=$1
    shift
    if "$@"; then
        echo "ok      $name: $what"
    else
        missed=$((missed + 1))
        echo "MISSED  $name: $what"
        echo "        ended with $number; said $(tail -n 2 "$work/said" | cut -c1-80 | tr '\n' '|') told $(tr '\n' '|' <"$work/told")"
    fi
}

# ended NUMBER LINE..: the run ended so, with these lines on standard error, each a pattern
ended() {
    local wanted=$1 lines
    shift
    [ "$number" -eq "$wanted" ] || return 1
    mapfile -t lines <"$work/told"
    [ "${#lines[@]}" -eq $# ] || return 1
    for line in "${lines[@]}"; do
        # shellcheck disable=SC2053
        [[ $line == $1 ]] || return 1
        shift
    done
}

said() { [ "$(cat "$work/said")" = "$1" ]; }

unchanged() { [ "$(keeps)" = "$before" ]; }

# makes volume 7 with needle 1
store() {
    printf 'volume.create -volumeId=7 -server=0\nput 7 1 0000002a 31\n' | "$program" >/dev/null
    before=$(keeps)
}

# finds ID..: the next run answers these needles of volume 7
finds() {
    local lines=
    for id in "$@"; do
        lines+="get 7 $id 0000002a"$'\n'
    done
    run <<<"$lines"
    [ "$number" -eq 0 ] && [ "$(grep -c '^OK 31$' "$work/said")" -eq $# ]
}

# start_first: a first run goes on by itself, its lines from descriptor 9, once it has answered a put of needle 2
start_first() {
    mkfifo lines
    "$program" <lines >"$work/first" 2>&1 &
    first=$!
    exec 9>lines
    printf 'put 7 2 0000002a 31\n' >&9
    for _ in $(seq 100); do
        grep -q '^OK$' "$work/first" && break
        sleep 0.05
    done
}

# ---- standard input, output and error

locks() { yes lock | head -n 9; }

# closed NAME STREAM..: runs the program on lines that change nothing, with these of its standard streams closed
closed() {
    enter "closed-$1"
    store
    : >"$work/said" >"$work/told"
    locks >lines
    (
        exec <lines >"$work/said" 2>"$work/told"
        for stream in "${@:2}"; do
            eval "exec $stream&-"
        done
        exec "${patient[@]}" "$program"
    )
    number=$?
}

closed output '1>'
wants 'an output fault' ended 6 'weed: output fault'
wants 'no file is changed' unchanged
wants 'the needle is there' finds 1

closed input '0<'
wants 'an input fault' ended 5 'weed: input fault'
wants 'no file is changed' unchanged
wants 'the needle is there' finds 1

closed both '0<' '1>'
wants 'an output fault' ended 6 'weed: output fault'
wants 'no file is changed' unchanged

closed all '0<' '1>' '2>'
wants 'the number of an output fault' ended 6
wants 'no file is changed' unchanged

closed output-and-error '1>' '2>'
wants 'the number of an output fault' ended 6
wants 'no file is changed' unchanged

closed input-and-error '0<' '2>'
wants 'the number of an input fault' ended 5
wants 'no file is changed' unchanged

closed error '2>'
wants 'all lines are answered' [ "$(grep -c '^OK$' "$work/said")" -eq 9 ]
wants 'no file is changed' unchanged

enter closed-error-and-a-put
store
printf 'put 7 2 0000002a 31\n' | "${patient[@]}" "$program" >"$work/said" 2>&-
number=$?
: >"$work/told"
wants 'the put is answered' said $'ready\nOK'
wants 'and is there' finds 1 2

enter turned-round
store
run </
wants 'a folder as standard input' ended 5 'weed: input fault'
run 0>/dev/null
wants 'standard input that is only to be written' ended 5 'weed: input fault'
"${patient[@]}" "$program" 1</dev/null 2>"$work/told" </dev/null
number=$?
wants 'standard output that is only to be read' ended 6 'weed: output fault'
wants 'no file is changed' unchanged

enter full-output
store
printf 'put 7 2 0000002a 31\n' | "${patient[@]}" "$program" >/dev/full 2>"$work/told"
number=${PIPESTATUS[1]}
wants 'an output fault' ended 6 'weed: output fault'
wants 'no file is changed' unchanged

enter broken-pipe
store
(
    sleep 1
    printf 'put 7 2 0000002a 31\n'
) | {
    "${patient[@]}" "$program" 2>"$work/told"
    echo $? >"$work/number"
} | true
number=$(cat "$work/number")
: >"$work/said"
wants 'an output fault' ended 6 'weed: output fault'
wants 'the needle is there' finds 1

# ---- two runs at once

enter two-runs
store
start_first
before=$(keeps)
run <<<'volume.list'
wants 'the second ends as no site and says why' ended 8 'weed: no site' '*another run*'
wants 'the second says nothing' said ''
wants 'no file is changed' unchanged
run --nonsense </dev/null
wants 'so does one with wrong words' ended 8 'weed: no site' '*another run*'
printf 'put 7 3 0000002a 31\n' >&9
exec 9>&-
wait "$first"
wants 'the first went on' grep -qz $'^ready\nOK\nOK\n$' "$work/first"
wants 'and what it answered is there' finds 1 2 3

enter killed-run
store
start_first
kill -STOP "$first"
run <<<'volume.list'
wants 'a run that is halted keeps the folder' ended 8 'weed: no site' '*another run*'
{ kill -KILL "$first" && wait "$first"; } 2>/dev/null
exec 9>&-
wants 'one that is killed leaves it, and what it answered' finds 1 2

enter halted-run
store
mkfifo lines
"$program" <lines >"$work/said" 2>"$work/told" &
process=$!
exec 9>lines
for id in $(seq 2 20); do
    kill -STOP "$process"
    printf 'put 7 %s 0000002a 31\n' "$id" >&9
    kill -CONT "$process"
done
exec 9>&-
wait "$process"
number=$?
wants 'a run that is halted and goes on answers all' [ "$(grep -c '^OK$' "$work/said")" -eq 19 ]
wants 'and all is there' finds $(seq 20)

# ---- what isn't a file of a volume

enter links
store
ln -s nowhere s00/8.dat
ln -s nowhere s00/any
echo text >elsewhere
ln -s ../elsewhere s01/9.dat
ln -s ../s00/7.idx s01/7.idx
before=$(keeps)
run <<<'volume.list'
wants 'links are passed over' said $'ready\nOK 7 plain 48'
wants 'and stay' unchanged
run <<<'volume.create -volumeId=8 -server=0'
wants 'a link is no place for a file' ended 2 'weed: fault of server 0' 'weed: s00/8.dat: *regular file*'
wants 'where it leads nothing is made' [ ! -e s00/nowhere ]
wants 'and it stays' [ -L s00/8.dat ]

enter one-folder
store
rmdir s01
ln -s s00 s01
before=$(keeps)
run <<<'volume.list'
wants 'two servers with one folder' ended 8 'weed: no site' 'weed: s01: another server has this folder'
wants 'no file is changed' unchanged
rm s01
wants 'the needle is there' finds 1

enter linked-folder
store
mv s01 disk
ln -s disk s01
run <<<'volume.create -volumeId=8 -server=1'
wants "a server's folder may be a link" [ -f disk/8.idx ]

enter other-kinds
store
mkdir s00/8.dat s02/folder
mkfifo s00/9.idx s02/fifo
before=$(keeps)
run <<<'volume.list'
wants 'folders and pipes are passed over' said $'ready\nOK 7 plain 48'
wants 'and stay' unchanged

if [ "$(id -u)" -eq 0 ] && command -v setpriv >/dev/null; then
    nobody=(setpriv --reuid=65534 --regid=65534 --clear-groups)
    enter foreign-file
    store
    chown -R 65534:65534 .
    echo secret >s00/secret
    echo secret >s00/7.dat.old
    chmod 0 s00/secret s00/7.dat.old
    chown 0:0 s00/secret s00/7.dat.old
    with=("${nobody[@]}")
    run <<<'get 7 1 0000002a'
    wants "a foreign file that can't be read is passed over" said $'ready\nOK 31'

    enter unreadable-file
    with=(env)
    store
    chown -R 65534:65534 .
    chmod 0 s00/7.idx
    chown 0:0 s00/7.idx
    with=("${nobody[@]}")
    run <<<'get 7 1 0000002a'
    wants "one of a volume isn't" ended 8 'weed: no site' 'weed: s00/7.idx: Permission denied*'
    with=(env)
    wants 'no file is changed' unchanged

    enter closed-folder
    with=("${nobody[@]}")
    run <<<'volume.list'
    wants 'a folder that is not to be written' ended 8 'weed: no site' 'weed: s03: Permission denied*'
    wants 'stays empty' [ -z "$(ls)" ]

    enter closed-server
    with=(env)
    store
    chown -R 65534:65534 .
    chmod 555 s02
    with=("${nobody[@]}")
    run <<<'volume.create -volumeId=8 -server=2'
    wants "a server's folder that is not to be written" ended 2 'weed: fault of server 2' 'weed: s02/8.dat*: Permission denied*'
    with=(env)
else
    echo 'left out the rights of files, which root alone can set up, with setpriv'
fi

enter file-for-folder
echo text >s01
run <<<'volume.list'
wants 'a file where a folder is to be made' ended 8 'weed: no site' 'weed: s01: File exists*'
wants 'no folder is left behind' [ "$(ls)" = s01 ]

enter other-text
store
touch $'s00/\xff\xfe'
run <<<'volume.list'
wants "a name that isn't text" ended 2 'weed: fault of server 0' 'weed: s00: *name*'

# ---- few descriptors

# volumes COUNT: lines that make so many volumes, put a needle into each, and tell it
volumes() {
    for volume in $(seq "$1"); do
        echo "volume.create -volumeId=$volume -server=$((volume % 4))"
        echo "put $volume 1 0000002a 31"
    done
    for volume in $(seq "$1"); do
        echo "get $volume 1 0000002a"
    done
}

# all_ok COUNT: so many lines were answered, each with OK
all_ok() { [ "$number" -eq 0 ] && [ "$(grep -c '^OK' "$work/said")" -eq "$1" ]; }

# descriptors COUNT: the runs that follow have so many
descriptors() {
    with=(bash -c 'ulimit -n "$0"; exec "$@"' "$1")
}

for limit in 256 16 5; do
    enter "descriptors-$limit"
    descriptors "$limit"
    run < <(volumes 40)
    wants 'forty volumes are made, filled and read' all_ok 120
    run < <(volumes 40 | grep get)
    wants 'and opened again' all_ok 40
done
enter descriptors-4
descriptors 4
run <<<'volume.list'
wants 'too few for a file' ended 8 'weed: no site' '*Too many open files*'
with=(env)

# ---- no room

# puts FROM TO: lines that put needles of 1000 bytes into volume 7
data=$(printf '31%.0s' $(seq 1000))
puts() {
    for id in $(seq "$1" "$2"); do
        echo "put 7 $id 0000002a $data"
    done
}

# has_answered: each put that was answered is there in the next run, and none stands in the way of it
has_answered() {
    local answered
    answered=$(($(grep -c '^OK$' "$work/said") - 1))
    [ "$answered" -gt 0 ] || return 1
    run < <(for id in $(seq "$answered"); do echo "get 7 $id 0000002a"; done)
    [ "$number" -eq 0 ] && [ "$(grep -c '^OK 31' "$work/said")" -eq "$answered" ]
}

mkdir "$work/full"
if [ "$(id -u)" -eq 0 ] && mount -t tmpfs -o size=64k none "$work/full" 2>/dev/null; then
    name=full-disk
    cd "$work/full" || exit 1
    run < <(
        echo 'volume.create -volumeId=7 -server=0'
        puts 1 100
    )
    wants 'the put that lacks room ends the run, which says why' ended 2 'weed: fault of server 0' 'weed: s00/7.*: No space left on device*'
    wants 'what was answered is there' has_answered
    cd "$work" || exit 1
    umount "$work/full"
    mount -t tmpfs -o nr_inodes=3 none "$work/full"
    name=no-room-for-folders
    cd "$work/full" || exit 1
    run <<<'volume.list'
    wants 'two folders of four' ended 8 'weed: no site' 'weed: s01: No space left on device*'
    wants 'none is left behind' [ -z "$(ls)" ]
    cd "$work" || exit 1
    umount "$work/full"
else
    echo 'left out a full disk, which root alone can set up'
fi

enter file-limit
with=(bash -c 'trap "" XFSZ; ulimit -f 16; exec "$@"' limited)
run < <(
    echo 'volume.create -volumeId=7 -server=0'
    puts 1 100
)
with=(env)
wants 'the put that lacks room ends the run, which says why' ended 2 'weed: fault of server 0' 'weed: s00/7.*: File too large*'
wants 'what was answered is there' has_answered

enter file-limit-signal
with=(bash -c 'ulimit -f 16; ulimit -c 0; exec "$@"' limited)
run < <(
    echo 'volume.create -volumeId=7 -server=0'
    puts 1 100
)
with=(env)
wants 'the signal ends the run' [ "$number" -gt 128 ]
wants 'what was answered is there' has_answered

# ---- calls that a signal interrupts, and calls that fail

# stopped: a store as a stop may leave it, so that its opening makes, cuts, renames and removes
stopped() {
    store
    printf 'volume.create -volumeId=8 -server=1\nput 8 1 0000002a 31\n' | "$program" >/dev/null
    mv s01/8.dat s01/8.cpd
    mv s01/8.idx s01/8.cpx
    rmdir s03
    printf 'torn' >>s00/7.dat
    printf 'torn' >>s00/7.idx
    printf 'torn' >s02/7.idx.tmp
    mkdir s04
}

# injects CALLS=ERROR WHEN PATH..: these calls of a run will fail so, or if paths are given those on them
injects() {
    local path
    with=(strace -f --quiet=all -o "$work/trace" -e "inject=${1%=*}:error=${1#*=}:when=$2")
    shift 2
    for path in "$@"; do
        with+=(-P "$path")
    done
}

injected() { grep -c INJECTED "$work/trace"; }

# interrupts NAME CALLS WHEN PATH..: these calls are interrupted, and nothing else is seen of it
interrupts() {
    enter "interrupted-$1"
    stopped
    printf 'get 7 1 0000002a\nget 8 1 0000002a\n' >lines
    injects "$2=EINTR" "${@:3}"
    run <lines
    with=(env)
    wants "$(injected) of these calls are interrupted, and made again" said $'ready\nOK 31\nOK 31'
    wants 'there was one' [ "$(injected)" -gt 0 ]
}

# fails NAME CALLS PATH..: the first, the second and so on of these calls fails, until there is none left to fail
fails() {
    local ids
    for time in $(seq 999); do
        enter "failed-$1-$time"
        stopped
        injects "$2=EIO" "$time" "${@:3}"
        run <<<'put 7 2 0000002a 31'
        with=(env)
        [ "$(injected)" -gt 0 ] || break
        case $number in
        0) wants 'the run ends well' said $'ready\nOK' ;;
        2) wants 'the run says what failed' ended 2 'weed: fault of server [0-4]' 'weed: s0[0-4]*: Input/output error*' ;;
        *) wants 'the run says what failed' ended 8 'weed: no site' 'weed: *: Input/output error*' ;;
        esac
        ids=(1)
        grep -q '^OK$' "$work/said" && ids=(1 2)
        wants 'what was answered is there' finds "${ids[@]}"
    done
    wants 'there was one' [ "$time" -gt 1 ]
}

if strace -o /dev/null true 2>/dev/null; then
    folders=(. s00 s01 s02 s03 s04 s00/. s01/. s02/. s03/. s04/.)
    files=(s00/7.dat s00/7.idx s01/8.dat s01/8.idx s01/8.cpd s01/8.cpx s02/7.idx.tmp)
    interrupts read read 1+2 lines
    interrupts open openat 1+2 "${folders[@]}" "${files[@]}"
    interrupts listing getdents64 1+2
    interrupts size statx 1+2
    interrupts pread pread64 1+2 "${files[@]}"
    interrupts sync fsync 1+2
    interrupts cut ftruncate 1+2
    interrupts lock flock 1+2
    interrupts folder '/^mkdir' 1+2
    interrupts remove '/^unlink' 1+2
    interrupts rename '/^rename' 1+2
    for call in openat getdents64 statx pread64 write fsync ftruncate; do
        fails "$call" "$call" "${folders[@]}" "${files[@]}"
    done
    fails lock flock
    fails folder '/^mkdir'
    fails remove '/^unlink'
    fails rename '/^rename'
else
    echo 'left out calls that are interrupted or fail, which need strace'
fi

echo "$tries tries, $missed not as wanted"
[ "$missed" -eq 0 ]
