#!/bin/bash
# Proves and builds crates/crc_bench, and lets it measure CRC-32C: crc.sh [TIMES]
# The processor should have nothing else to do meanwhile.
set -eu
times=${1:-3}
cd "$(dirname "$0")/../crates/crc_bench"
for _ in $(seq "$times"); do
    rt run -- time 2>/dev/null
done
