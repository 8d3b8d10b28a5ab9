#!/bin/sh
# The kernels' speed in each ratio against ISA-L's, as medians of the ratios within rounds:
# bench/kernel.sh [ROUNDS] [FOLDER]
# encode_piece, restore_pieces of as many lost shards as there are parity shards, and restore_piece of one.
# ISA-L is timed on pieces that stand as the kernels' do, one after the other, and on aligned pieces apart.
# Needs gcc, python3, libisal-dev and rt. CORE names the processor that is used. FOLDER keeps what is built.
# With PRIORITY=50, as root, no other program of the machine runs there meanwhile.
set -eu
top=$(cd "$(dirname "$0")/.." && pwd)
rounds=${1:-15}
to=${2:-${TMPDIR:-/tmp}/kernel-bench}
core=${CORE:-1}
first="taskset -c $core"
[ -z "${PRIORITY:-}" ] || first="chrt -f $PRIORITY $first"
mkdir -p "$to"
gcc -O2 -o "$to/isal" "$top/bench/isal.c" -lisal
for cpu in x86-64-v2 x86-64-v3; do
    (cd "$top/crates/kernel_bench" && rt run --cpu=$cpu >"$to/$cpu.log" 2>&1 && cp out/kernel_bench "$to/$cpu")
done
: >"$to/rates"
for round in $(seq "$rounds"); do
    for what in isal x86-64-v2 x86-64-v3; do
        $first "$to/$what" time | grep MB/s | sed "s/^/$round $what /" >>"$to/rates"
    done
done
python3 - "$to/rates" <<'PY'
import statistics, sys
rates = {}
for line in open(sys.argv[1]):
    number, what, name, rate, _ = line.split()
    rates[number, what, name] = float(rate)
rounds = sorted({number for number, _, _ in rates})

def speed(what, name):
    return statistics.median(rates[n, what, name] for n in rounds)

def ratio(what, name, theirs):
    return statistics.median(rates[n, what, name] / rates[n, "isal", theirs] for n in rounds)

for shards in ("3+2", "6+3", "10+4", "12+4"):
    for call in ("encode", "restore"):
        name, theirs = f"{call}_{shards}", f"{call}_apart_{shards}"
        print(f"{name} isal: {speed('isal', name):.0f} MB/s, on pieces apart {speed('isal', theirs):.0f} MB/s")
        for what in ("x86-64-v2", "x86-64-v3"):
            same, apart = ratio(what, name, name), ratio(what, name, theirs)
            print(f"{name} {what}: {speed(what, name):.0f} MB/s, {same:.2f} of ISA-L on the same pieces, {apart:.2f} of it on pieces apart")
    for what in ("x86-64-v2", "x86-64-v3"):
        print(f"restore_one_{shards} {what}: {speed(what, f'restore_one_{shards}'):.0f} MB/s")
PY
