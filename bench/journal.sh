#!/bin/bash
# Measures the journal over files by bench_journal, in the folder TMPDIR or /tmp, which is to be on a disk.
# First appends of 100-byte batches, against a loop in Python that for each writes as many bytes, calls
# fdatasync, writes one byte and calls fdatasync again: in turn, 21 runs of 100 of each, the median of the
# nanoseconds of one, and the loop's over ours (1 says as fast). Then the opening of a journal of 256 MiB,
# in batches of 100 bytes and of 64 KiB, against sha256sum of its file: the least processor time of five
# runs of each in turn (user and system, in seconds), and ours over sha256sum's (1 says as fast). Wants
# python3, sha256sum and the kit's rt.
set -euo pipefail
top=$(cd "$(dirname "$0")/.." && pwd)
room=$(mktemp -d)
trap 'rm -r "$room"' EXIT

appends=100
rounds=21
runs=5

(cd "$top/crates/bench_journal" && rt run) > "$room/build.log" 2>&1 || { cat "$room/build.log"; exit 1; }
ours=$top/crates/bench_journal/out/bench_journal
cd "$room"

# The nanoseconds of one append of the disk's own.
pairs() {
  python3 - "$appends" <<'PYTHON'
import os, sys, time
count = int(sys.argv[1])
file = os.open("pairs", os.O_RDWR | os.O_CREAT | os.O_TRUNC)
os.pwrite(file, bytes(18), 0)
os.fdatasync(file)
tail, record = 18, bytes(137)
start = time.monotonic_ns()
for _ in range(count):
    os.pwrite(file, record, tail)
    os.fdatasync(file)
    os.pwrite(file, b"\1", tail - 1)
    os.fdatasync(file)
    tail += len(record)
print((time.monotonic_ns() - start) // count)
PYTHON
}

# Runs a command, with its output in a file, and prints the processor time.
cost() {
  local into=$1 TIMEFORMAT='%U %S'
  shift
  { time "$@" > "$into"; } 2>&1 | awk '{ print $1 + $2 }'
}

median() { sort -n | sed -n "$(( (rounds + 1) / 2 ))p"; }

least() { sort -g | head -1; }

for _ in $(seq $rounds); do
  rm -f a.journal b.journal
  "$ours" append "$appends" >> ours.times
  pairs >> pairs.times
done
a=$(median < ours.times); b=$(median < pairs.times)
printf '%-22s %12s %12s %6s\n' appends ours fdatasync ratio
printf '%-22s %12s %12s %6s\n' '100 bytes' "$a" "$b" "$(echo "scale=2; $b / $a" | bc)"

printf '%-22s %12s %12s %6s\n' 'opening 256 MiB' ours sha256sum ratio
for each in 100 65536; do
  rm -f a.journal b.journal ours.times sum.times
  # A record has 37 bytes beside its batch.
  "$ours" fill $(( 268435456 / (each + 37) * each )) "$each"
  for _ in $(seq $runs); do
    cost opened "$ours" open >> ours.times
    cost sum sha256sum b.journal >> sum.times
  done
  a=$(least < ours.times); b=$(least < sum.times)
  printf '%-22s %12s %12s %6s\n' "batches of $each" "$a" "$b" "$(echo "scale=2; $a / $b" | bc)"
done
