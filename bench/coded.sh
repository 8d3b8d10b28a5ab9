#!/usr/bin/env bash
# Measures gets of a coded volume and reads of its whole data file: coded.sh PEER [ROUNDS [PROGRAM]]
# PEER is a program in C that works in the current folder with the same files and calls of the system: `PEER encode 7
# --nosync` makes the plain volume 7 a coded one of 10 and 4 shards, and `PEER gets 7 --count=N` gets needles of ids by
# chance and ends with a line `gets.total .. user SECONDS sys SECONDS`. It needs the blocks of 1 MiB that a small volume has.
# Proves and builds crates/coded_bench and crates/kernel_bench, lets weed, or the PROGRAM, write a volume of 4 KiB needles in
# memory, and runs the two in turn, with all shards and with one server's folder taken away: at four servers, so that three of the
# ten data shards are missing. Tells the processor's time of a get (user and system, medians over the rounds) and the ratio
# (median of those within rounds). Then reads of the data file in ranges of 4 MiB, at fourteen servers, with nothing missing
# and without the first shard: the bytes a second that are answered and that are read from shards, the latter's ratio to
# the kernel's restoring of one, and what such reads and the kernel take apart, to the whole. Needs gcc, python3 and rt. CORE
# names the processor that is used; with PRIORITY=50, as root, no other program runs there meanwhile.
set -eu
here=$(cd "$(dirname "$0")/.." && pwd)
peer=$(realpath "$1")
rounds=${2:-7}
work=$(mktemp -d -p /dev/shm)
trap 'rm -rf "$work"' EXIT
if [ -n "${3:-}" ]; then
    cp "$3" "$work/weed"
else
    mkdir "$work/first"
    (cd "$work/first" && "$here/run" </dev/null >/dev/null)
    cp "$here/crates/weed/out/weed" "$work/weed"
fi
# rt runs what it has built in the crate's folder: a word keeps coded_bench from opening a site there
for name in coded_bench kernel_bench; do
    (cd "$here/crates/$name" && rt run -- built >"$work/$name.log" 2>&1) || true
    cp "$here/crates/$name/out/$name" "$work/$name"
done
gcc -O2 -shared -fPIC -o "$work/nosync.so" "$here/bench/nosync.c"
first=(taskset -c "${CORE:-1}")
[ -z "${PRIORITY:-}" ] || first=(chrt -f "$PRIORITY" "${first[@]}")
"${first[@]}" python3 - "$work" "$peer" "$rounds" <<'PY'
import os, random, re, shutil, statistics, subprocess, sys

work, peer, rounds = sys.argv[1], sys.argv[2], int(sys.argv[3])
preloaded = dict(os.environ, LD_PRELOAD=f"{work}/nosync.so")
NEEDLES = 20000
GETS = 40000
TURNS = 10
DATA = 10
BLOCK = 1 << 20


def tell(*words, folder=work):
    """What a program says in a folder."""
    return subprocess.run(words, cwd=folder, env=preloaded, stdout=subprocess.PIPE, text=True, check=True).stdout


def number(pattern, text):
    return float(re.search(pattern, text)[1])


def make(servers):
    """A coded volume of needles at so many servers, and the bytes of its data file."""
    store = f"{work}/store"
    for server in range(servers):
        os.makedirs(f"{store}/s{server:02}")
    random.seed(servers)
    with open(f"{work}/script", "w") as script:
        script.write("volume.create -volumeId=7 -server=0\n")
        for needle in range(1, NEEDLES + 1):
            script.write(f"put 7 {needle} 0000002a {random.randbytes(4096).hex()}\n")
    with open(f"{work}/script") as script, open(f"{work}/replies", "w") as replies:
        subprocess.run([f"{work}/weed"], cwd=store, env=preloaded, stdin=script, stdout=replies, check=True)
    os.remove(f"{work}/script")
    size = os.path.getsize(f"{store}/s00/7.dat")
    tell(peer, "encode", "7", "--nosync", folder=store)
    return store, size


def gets(store, which):
    """The processor's microseconds of a get."""
    if which == "peer":
        text = tell(peer, "gets", "7", f"--count={GETS}", folder=store)
        total = re.search(r"gets\.total .* user (\S+) sys (\S+)", text)
        return (float(total[1]) + float(total[2])) / GETS * 1e6
    text = tell(f"{work}/coded_bench", "gets", "7", str(GETS), folder=store)
    if number(r"found (\d+)", text) != GETS or number(r"bytes (\d+)", text) != GETS * 4096:
        sys.exit(f"other needles were found: {text}")
    return number(r"(\d+) ns", text) / 1e3


def compare_gets(what, store):
    spent = {which: [] for which in ("weed", "peer")}
    for _ in range(rounds):
        for which in spent:
            spent[which].append(gets(store, which))
    weed, other = (statistics.median(times) for times in spent.values())
    ratio = statistics.median(a / b for a, b in zip(spent["weed"], spent["peer"]))
    print(f"| {what} | {weed:.1f} | {other:.1f} | {ratio:.2f} |", flush=True)


def from_first(size):
    """The bytes of the data file that are the first shard's."""
    return sum(min(BLOCK, size - start) for start in range(0, size, DATA * BLOCK))


def reads(store, size):
    """The speeds of reading the data file and of the kernel, in megabytes a second, by round."""
    answered, kernel = [], []
    for _ in range(rounds):
        text = tell(f"{work}/coded_bench", "ranges", "7", str(TURNS), folder=store)
        if number(r"bytes (\d+)", text) != TURNS * size:
            sys.exit(f"other bytes were read: {text}")
        answered.append(number(r"(\d+) MB/s", text))
        kernel.append(number(r"restore_one_10\+4 (\d+) MB/s", tell(f"{work}/kernel_bench", "time")))
    return answered, kernel


def compare_reads(store, size):
    """Reads with nothing missing, and without the first shard, whose bytes are made of ten others."""
    whole, _ = reads(store, size)
    shutil.rmtree(f"{store}/s00")
    mended, kernel = reads(store, size)
    lost = from_first(size)
    plain = statistics.median(whole)
    read = size + (DATA - 1) * lost
    to_kernel = statistics.median(speed * read / size / fast for speed, fast in zip(mended, kernel))
    apart = statistics.median((read / plain + DATA * lost / fast) / (size / speed) for speed, fast in zip(mended, kernel))
    speed = statistics.median(mended)
    print(f"| nothing missing | {plain:.0f} | {plain:.0f} | | |")
    print(f"| the first shard missing | {speed:.0f} | {speed * read / size:.0f} | {to_kernel:.2f} | {apart:.2f} |")
    print(f"\nThe kernel alone reads {statistics.median(kernel):.0f} MB/s of shards.")


store, size = make(4)
print("| get | weed, µs | in C, µs | ratio |")
print("|---|---|---|---|")
compare_gets("nothing missing", store)
shutil.rmtree(f"{store}/s00")
compare_gets("one server of four missing", store)
shutil.rmtree(store)
store, size = make(14)
print("\n| read of the data file | MB/s | of shards, MB/s | to the kernel | reads and kernel apart, to both |")
print("|---|---|---|---|---|")
compare_reads(store, size)
PY
