#!/bin/bash
# How long the forms of one script take, up to the limit of pending intents: 65,536 subscriptions to 65,536 callbacks, and
# one more. In seven runs, prints the median time of the whole, and the median of what the last thousand accepted forms
# cost beside the first thousand. Needs perl, for the time at which a line of the transcript comes.
set -euo pipefail
cd "$(dirname "$0")/.."
./tubhollow --version >/dev/null
room=$(mktemp -d)
trap 'rm -r "$room"' EXIT
base="hub.mode=subscribe&hub.topic=http%3A%2F%2Fpub.example%2Fx&hub.callback=http%3A%2F%2Fsub.example%2Fcb"
runs=7

for i in $(seq 10000 75536); do
    printf 'form 105\n%s%s\n' "$base" "$i"
done >"$room/script"
echo end >>"$room/script"

for _ in $(seq "$runs"); do
    ./tubhollow drive <"$room/script" | perl -MTime::HiRes=time -ne '
        BEGIN { $at[0] = time }
        $at[$.] = time;
        END { printf "%.2f %.2f\n", $at[65537] - $at[0], ($at[65536] - $at[64537]) / ($at[1000] - $at[1]) }'
done >"$room/times"

median() { sort -g | sed -n "$(((runs + 1) / 2))p"; }
echo "65,537 forms: $(cut -d' ' -f1 "$room/times" | median) s"
echo "the last thousand beside the first: $(cut -d' ' -f2 "$room/times" | median)"
