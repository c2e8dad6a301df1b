#!/usr/bin/env bash
# Times ./xindex pipe on request lines of a few keys, beside cat of the same file.  bench/pipe.sh [LINES] [KEYS]
set -eu
lines=${1:-1000000} keys=${2:-100}
top=$(dirname "$(readlink -f "$0")")/..
input=$(mktemp)
output=$(mktemp)
trap 'rm -f "$input" "$output"' EXIT

# Half of the requests look up, four in ten set, one in ten removes.
awk -v lines="$lines" -v keys="$keys" 'BEGIN {
    srand(1)
    for (i = 0; i < lines; i++) {
        key = int(rand() * keys) * 18014398509481
        draw = rand()
        if (draw < 0.5) printf "get %d\n", key
        else if (draw < 0.9) printf "put %d %d\n", key, i
        else printf "remove %d\n", key
    }
}' > "$input"

"$top/xindex" pipe < /dev/null
for sink in /dev/null "$output"; do
    for command in "$top/xindex pipe" cat; do
        begin=$(date +%s.%N)
        $command < "$input" > "$sink"
        end=$(date +%s.%N)
        awk -v what="${command##*/}" -v sink="$sink" -v s="$(echo "$end $begin" | awk '{print $1 - $2}')" \
            'BEGIN { printf "%-12s to %-28s %.3f s\n", what, sink, s }'
    done
done
