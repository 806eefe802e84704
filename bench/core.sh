#!/bin/bash
# Measures the core by bench_core: the time of one event, which the core accepts and applies, of one asking
# call, and of one event that a compaction keeps, where 1,000, 10,000 and 100,000 leases are held, with ten
# owed pairs each, the least of five runs in nanoseconds, and its ratios between the sizes; then the memory of
# 262,144 leases, and of 1,048,576 owed pairs beside them. Wants the kit's rt and /usr/bin/time.
set -euo pipefail
top=$(cd "$(dirname "$0")/.." && pwd)
room=$(mktemp -d)
trap 'rm -r "$room"' EXIT

"$top/bench/build.sh" bench_core "$room"
ours=$room/bench_core

for _ in 1 2 3 4 5; do "$ours" 1000 10000 100000; done > "$room/rows"

awk '
  { if (!($2 in seen)) { seen[$2] = 1; name[++names] = $2 }
    at = $2 " " $1; if (!(at in least) || $3 < least[at]) least[at] = $3 }
  END {
    printf "%-18s %8s %8s %8s %8s %8s\n", "call", "1,000", "10,000", "100,000", "ratio", "ratio"
    for (i = 1; i <= names; i++) {
      n = name[i]; a = least[n " 1000"]; b = least[n " 10000"]; c = least[n " 100000"]
      printf "%-18s %8d %8d %8d %8.2f %8.2f\n", n, a, b, c, b / (a ? a : 1), c / (b ? b : 1)
    }
  }' "$room/rows"

# The most memory of a run, in KiB.
memory() { /usr/bin/time -f %M "$ours" memory "$@" 2>&1; }

none=$(memory 0 0); leases=$(memory 262144 0); pairs=$(memory 262144 4)
echo "262,144 leases: $(( (leases - none) * 1024 / 262144 )) bytes each"
echo "1,048,576 owed pairs of them: $(( (pairs - leases) * 1024 / 1048576 )) bytes each"
