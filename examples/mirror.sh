#!/usr/bin/env bash
# A mirror of two files: a file is written and synced over both, one of them is lost, and the other has it; the next command makes
# both alike again. And files that are no mirror are refused.
#
#     examples/mirror.sh
#
# It ends with status 0 where all of this was so.
set -u
cd "$(dirname "$0")/.." || exit 1
folder="$(mktemp -d)"
trap 'rm -rf "$folder"' EXIT
failed=0

# Runs a command over two files, shows what it prints, and asks for its status.
ask() {
    local want="$1" first="$2" second="$3"
    shift 3
    echo "\$ ufs $* --image $first --mirror $second"
    ./ufs "$@" --image "$folder/$first" --mirror "$folder/$second" <"$folder/script"
    local got=$?
    if [ "$got" != "$want" ]; then
        echo "status $got, and not $want"
        failed=1
    fi
}

# Asks whether two files have the same bytes.
alike() {
    if ! cmp "$folder/$1" "$folder/$2"; then
        failed=1
    fi
}

printf 'client 0\nopen /notes rw creat\nwrite 3 6d696c6b0a\nfsync 3\nclose 3\nend\n' >"$folder/script"
ask 3 a.img b.img tree
ask 0 a.img b.img mkfs 1024 64 256
ask 0 a.img b.img play
alike a.img b.img

echo "a.img is lost"
rm "$folder/a.img"
ask 0 a.img b.img tree
alike a.img b.img
echo "b.img is filled with zeros"
: >"$folder/b.img"
ask 0 a.img b.img check
alike a.img b.img

ask 4 a.img a.img tree
exit "$failed"
