#!/bin/bash
# Measures signing against openssl: 256 bodies of 1 MiB by each method, by bench_hmac and by
# `openssl dgst -hmac`, in turn. It compares all digits, and prints the processor time of the
# fastest of five runs of each (user and system, in seconds) and openssl's time over ours:
# 0.5 says that we sign half as fast. Wants openssl and the kit's rt.
set -euo pipefail
top=$(cd "$(dirname "$0")/.." && pwd)
room=$(mktemp -d)
trap 'rm -r "$room"' EXIT

bodies=256
runs=5
secret=0123456789abcdef0123456789abcdef01234567

(cd "$top/crates/bench_hmac" && rt run -- sha1 Jefe data/body.txt) > "$room/build.log" 2>&1 \
  || { cat "$room/build.log"; exit 1; }
ours=$top/crates/bench_hmac/out/bench_hmac

head -c 1048576 /dev/urandom > "$room/body"
files=()
for _ in $(seq $bodies); do files+=("$room/body"); done

# Runs a command, with its output in a file, and prints the processor time.
cost() {
  local into=$1 TIMEFORMAT='%U %S'
  shift
  { time "$@" > "$into"; } 2>&1 | awk '{ print $1 + $2 }'
}

least() { sort -g | head -1; }

printf '%-8s %8s %8s %6s\n' method ours openssl ratio
for method in sha1 sha256 sha384 sha512; do
  : > "$room/ours.times"; : > "$room/openssl.times"
  for _ in $(seq $runs); do
    cost "$room/ours" "$ours" "$method" "$secret" "${files[@]}" >> "$room/ours.times"
    cost "$room/openssl" openssl dgst "-$method" -hmac "$secret" "${files[@]}" >> "$room/openssl.times"
  done
  cmp <(sed 's/.*=//' "$room/ours") <(sed 's/.*= //' "$room/openssl") \
    || { echo "the signatures by $method differ"; exit 1; }
  a=$(least < "$room/ours.times"); b=$(least < "$room/openssl.times")
  printf '%-8s %8s %8s %6s\n' "$method" "$a" "$b" "$(echo "scale=2; $b / $a" | bc)"
done
