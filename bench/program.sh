#!/usr/bin/env bash
# Measures what lines cost the processor, beside a program in plain C that does the same work by the same calls of the
# system: program.sh [ROUNDS [PROGRAM]]
# Runs weed, or the PROGRAM, and bench/program.c, built plain and tuned, in turn on the same scripts in memory, with no
# fsync. Tells the processor's time of a line (user and system, medians over the rounds) and the ratios (medians of
# those within rounds). Then how puts, the next opening and gets of weed grow with the number of needles. Needs gcc and
# python3. CORE names the processor that is used; with PRIORITY=50, as root, no other program runs there meanwhile.
set -eu
here=$(cd "$(dirname "$0")/.." && pwd)
rounds=${1:-7}
work=$(mktemp -d -p /dev/shm)
trap 'rm -rf "$work"' EXIT
if [ -n "${2:-}" ]; then
    program=$(realpath "$2")
else
    (cd "$work" && "$here/run" </dev/null >/dev/null)
    program=$here/crates/weed/out/weed
fi
gcc -O2 -o "$work/plain" "$here/bench/program.c"
gcc -O2 -DTUNED -msse4.2 -o "$work/tuned" "$here/bench/program.c"
gcc -O2 -shared -fPIC -o "$work/nosync.so" "$here/bench/nosync.c"
first=(taskset -c "${CORE:-1}")
[ -z "${PRIORITY:-}" ] || first=(chrt -f "$PRIORITY" "${first[@]}")
"${first[@]}" python3 - "$work" "$program" "$rounds" <<'PY'
import os, random, shutil, statistics, subprocess, sys

work, weed, rounds = sys.argv[1], sys.argv[2], int(sys.argv[3])
programs = {"weed": weed, "plain": f"{work}/plain", "tuned": f"{work}/tuned"}
peers = ("plain", "tuned")
preloaded = dict(os.environ, LD_PRELOAD=f"{work}/nosync.so")
MOST_IDS = 1 << 64


def put(number, data):
    return f"put 7 {number} 0000002a {data.hex()}\n"


def get(number):
    return f"get 7 {number} 0000002a\n"


def write(name, lines, is_first):
    """A script of these lines, of which the first make the volume where it is new."""
    with open(f"{work}/{name}", "w") as script:
        if is_first:
            script.write("volume.create -volumeId=7 -server=0\n")
        script.writelines(lines)


def run(program, script, folder, replies="/dev/null"):
    """Runs a script in a folder, and answers the processor's seconds."""
    os.makedirs(folder, exist_ok=True)
    with open(script) as source, open(replies, "wb") as told:
        started = subprocess.Popen([programs[program]], cwd=folder, env=preloaded, stdin=source, stdout=told)
        _, status, used = os.wait4(started.pid, 0)
    if status != 0:
        sys.exit(f"{program} ended with {status} on {script}")
    return used.ru_utime + used.ru_stime


def run_new(program, script):
    """The same in a folder of its own."""
    folder = f"{work}/new"
    spent = run(program, script, folder)
    shutil.rmtree(folder)
    return spent


def same(folder, name):
    """Whether all programs answer the same there."""
    texts = []
    for program in programs:
        run(program, f"{work}/{name}", folder, f"{work}/replies")
        with open(f"{work}/replies", "rb") as told:
            texts.append(told.read())
    return all(text == texts[0] and b"\nERR" not in text for text in texts)


def tell(what, count, measure):
    """Measures the programs in turn, and tells the medians of a line and of the ratios within rounds."""
    spent = {program: [] for program in programs}
    for _ in range(rounds):
        for program in programs:
            spent[program].append(measure(program))
    row = [f"{statistics.median(spent[p]) / count * 1e6:.1f}" for p in programs]
    for peer in peers:
        row.append(f"{statistics.median(a / b for a, b in zip(spent['weed'], spent[peer])):.2f}")
    print("| " + " | ".join([what, *row]) + " |", flush=True)


def compare(name, size, needles, puts, gets):
    random.seed(size)
    write("put", (put(n, random.randbytes(size)) for n in range(puts)), True)
    tell(f"put of {name}", puts, lambda p: run_new(p, f"{work}/put"))
    write("made", (put(n, random.randbytes(size)) for n in range(needles)), True)
    run("weed", f"{work}/made", f"{work}/store")
    write("get", (get(random.randrange(needles)) for _ in range(gets)), False)
    if not same(f"{work}/store", "get"):
        sys.exit("the programs answer otherwise")
    tell(f"get of {name}", gets, lambda p: run(p, f"{work}/get", f"{work}/store"))
    shutil.rmtree(f"{work}/store")


def grow(needles, gets=100000):
    """The seconds of so many puts of a byte, of the next opening, and of gets."""
    ids = [turn * 0x9E3779B97F4A7C15 % MOST_IDS for turn in range(needles)]
    write("put", (put(number, b"1") for number in ids), True)
    write("get", (get(number) for number in random.choices(ids, k=gets)), False)
    spent = {"put": [], "open": [], "get": []}
    for _ in range(rounds):
        folder = f"{work}/store"
        spent["put"].append(run("weed", f"{work}/put", folder) / needles)
        spent["open"].append(run("weed", "/dev/null", folder))
        spent["get"].append((run("weed", f"{work}/get", folder) - spent["open"][-1]) / gets)
        shutil.rmtree(folder)
    puts, opening, found = (statistics.median(times) for times in spent.values())
    print(f"| {needles} | {puts * 1e6:.2f} | {opening * 1e3:.1f} | {found * 1e6:.2f} |", flush=True)


print("| line | weed, µs | plain C, µs | tuned C, µs | weed to plain C | to tuned C |")
print("|---|---|---|---|---|---|")
compare("4 KiB", 4 << 10, 1000, 20000, 50000)
compare("1 MiB", 1 << 20, 8, 100, 400)
print("\n| needles | put, µs | opening, ms | get, µs |")
print("|---|---|---|---|")
for needles in (10**4, 10**5, 10**6):
    grow(needles)
PY
