#!/usr/bin/env bash
# Measures the index of a volume: index.sh [PROGRAM [COUNT]]
# Proves and builds crates/map_bench, and lets it put a million needles into an index by rising, falling and mixed ids.
# With a program, as weed, it makes a volume of COUNT needles (a million) by each order in memory, and tells the
# processor's seconds of these puts and of the next opening, and the most memory that each run had. Needs python3.
set -eu
here=$(cd "$(dirname "$0")/.." && pwd)
program=${1:+$(realpath "$1")}
count=${2:-1000000}
work=$(mktemp -d -p /dev/shm)
trap 'rm -rf "$work"' EXIT

# lines ORDER: makes volume 7, and puts so many needles
lines() {
    python3 - "$1" "$count" <<'END'
import sys
count, last = int(sys.argv[2]), (1 << 64) - 1
ids = {
    "rising": range(count),
    "falling": (last - turn for turn in range(count)),
    "mixed": (turn * 0x9E3779B97F4A7C15 & last for turn in range(count)),
}
print("volume.create -volumeId=7 -server=0")
for number in ids[sys.argv[1]]:
    print(f"put 7 {number} 0000002a 31")
END
}

# spent: runs the program on standard input, and tells its seconds and kilobytes
spent() {
    python3 -c '
import resource, subprocess, sys
subprocess.run(sys.argv[1:], stdout=subprocess.DEVNULL, check=True)
used = resource.getrusage(resource.RUSAGE_CHILDREN)
print(f"{used.ru_utime + used.ru_stime:.2f} s ({used.ru_utime:.2f} of the program), {used.ru_maxrss} KiB")
' "$program"
}

for order in rising falling mixed; do
    (cd "$here/crates/map_bench" && rt run -- "$order" 2>/dev/null | tail -n 1)
done
[ -n "$program" ] || exit 0
for order in rising falling mixed; do
    mkdir "$work/$order"
    cd "$work/$order"
    lines "$order" >"$work/script"
    echo "$order: $count puts $(spent <"$work/script")"
    echo "$order: opening $(spent </dev/null)"
    rm -rf "${work:?}/$order"
done
