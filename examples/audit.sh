#!/usr/bin/env bash
# An audit: each script beside this one is played with its trace over a new image, and what is printed is the text of a legal
# history from that image's tree. With one digit of a reply changed, and without its last line, it isn't, and the first ticket is
# named at which it isn't; nor is it from the tree that the session left.
#
#     examples/audit.sh
#
# It ends with status 0 where all of this was so.
set -u
cd "$(dirname "$0")/.." || exit 1
folder="$(mktemp -d)"
trap 'rm -rf "$folder"' EXIT
failed=0

# Audits a script and a text from an image, and asks for the status.
ask() {
    local want="$1" image="$2" text="$3"
    cat "$script" "$folder/$text" | ./ufs audit --image "$folder/$image"
    local got=${PIPESTATUS[1]}
    if [ "$got" != "$want" ]; then
        echo "status $got, and not $want"
        failed=1
    fi
}

for script in examples/*.ufs; do
    if grep -q '^ufs: line' "${script%.ufs}.out"; then
        continue
    fi
    echo "$script"
    ./ufs mkfs --image "$folder/new.img" 8192 64 256 >"$folder/made" || failed=1
    cp "$folder/new.img" "$folder/played.img"
    ./ufs play --trace --image "$folder/played.img" <"$script" >"$folder/text" || failed=1
    ask 0 new.img text

    echo "a reply is changed, and the last line is left out"
    sed '0,/ fd 3$/s// fd 4/' "$folder/text" >"$folder/changed"
    ask 9 new.img changed
    sed '$d' "$folder/text" >"$folder/cut"
    ask 9 new.img cut
done

script=examples/notes.ufs
echo "$script, from the tree that it left"
./ufs mkfs --image "$folder/new.img" 8192 64 256 >"$folder/made" || failed=1
./ufs play --trace --image "$folder/new.img" <"$script" >"$folder/text" || failed=1
ask 9 new.img text
exit "$failed"
