#!/usr/bin/env bash
# A session is killed while it writes and syncs, and its image is recovered.
#
#     examples/kill.sh [SECONDS]
#
# The session appends one byte after another to /log, each with an fsync. It is killed by signal 9 after so many seconds,
# 2 where none are given. It has printed nothing by then, since replies come behind the closing; how far it came is what `tree`
# shows of /log. `recovered N` counts the transactions since the last checkpoint, one of the names and one for each append: where
# the journal was full before the kill, there are more appends than that.
set -u
cd "$(dirname "$0")/.." || exit 1
folder="$(mktemp -d)"
trap 'rm -rf "$folder"' EXIT

show() {
    echo "\$ ufs $*"
    ./ufs "$@" --image "$folder/ufs.img"
}

show mkfs 1024 64 256
{
    echo "client 0"
    echo "open /log w creat append"
    for _ in $(seq 30000); do
        echo "write 3 61"
        echo "fsync 3"
    done
    echo "end"
} >"$folder/script"
./ufs play --image "$folder/ufs.img" <"$folder/script" >"$folder/replies" &
session=$!
sleep "${1:-2}"
kill -9 "$session"
wait "$session" 2>/dev/null
show check
show recover
show tree
show check
