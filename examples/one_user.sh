#!/usr/bin/env bash
# An image has one user: while a session appends to a file, each byte with an fsync, every other command over the same image
# ends with status 4, and the session's image is clean behind it. And a file is made by writing: a command that only looks at a
# name that isn't there leaves no file.
#
#     examples/one_user.sh [APPENDS]
#
# It ends with status 0 where all of this was so. 30,000 appends are made where no number is given.
set -u
cd "$(dirname "$0")/.." || exit 1
folder="$(mktemp -d)"
trap 'rm -rf "$folder"' EXIT
image="$folder/ufs.img"
failed=0

# Runs a command over a file, shows what it prints, and asks for its status.
ask() {
    local want="$1" file="$2"
    shift 2
    echo "\$ ufs $*"
    ./ufs "$@" --image "$file" <"$folder/script"
    local got=$?
    if [ "$got" != "$want" ]; then
        echo "status $got, and not $want"
        failed=1
    fi
}

printf 'client 0\nmkdir /d\nend\n' >"$folder/script"
for command in tree check recover play; do
    ask 3 "$folder/typo.img" "$command"
done
if [ -e "$folder/typo.img" ]; then
    echo "a file was made"
    failed=1
fi

ask 0 "$image" mkfs 1024 64 256
{
    echo "client 0"
    echo "open /log w creat append"
    for _ in $(seq "${1:-30000}"); do
        echo "write 3 61"
        echo "fsync 3"
    done
    echo "end"
} >"$folder/appends"
./ufs play --image "$image" <"$folder/appends" >"$folder/replies" &
session=$!
sleep 1
for command in play recover check tree; do
    ask 4 "$image" "$command"
done
wait "$session"
echo "the session ended with status $?"
ask 0 "$image" check
exit "$failed"
