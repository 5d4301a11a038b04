#!/usr/bin/env bash
# Where `get` writes: what is there is kept until the new file is complete, and devices, pipes and links stay what they are.
#   get.sh SFS
set -euo pipefail
here=$(cd "$(dirname "${BASH_SOURCE[0]}")" && pwd)
# shellcheck source=lib.sh
. "$here/lib.sh"
left=()

done_ format card.img 1M >/dev/null
head -c 60000 /dev/urandom >new
echo short >short
done_ put card.img new short /
done_ ln -s card.img short soft
mkdir t
echo "the old bytes" >old

# alone DIR NAME..: there is nothing else, no file that was begun either
alone() {
    is "files in $1" "$(printf '%s\n' "${@:2}" | sort | xargs)" "$(find "$1" -mindepth 1 -maxdepth 1 -printf '%f\n' | sort | xargs)"
}

# Replaced, with its permissions, by a file that is complete.
cp old t/f
chmod 640 t/f
refused 74 "-f" get card.img new t/f
cmp old t/f || fail "the old file changed"
done_ get -f card.img new t/f
cmp new t/f || fail "the new file is another"
is "mode" 640 "$(stat -c %a t/f)"
alone t f

# No room: the old file stays. First by a limit on files' sizes, then on a disk that is full.
# limited STATUS WORDS..: the command where no file may be longer than 20 KiB must end with that status
limited() {
    local status=0
    (
        ulimit -c 0 -f 20
        "$sfs" "${@:2}"
        exit $?
    ) 2>err || status=$?
    is "${*:2}" "$1" "$status"
}
cp old t/f
# By default the system ends a program for that: after it has put things in order.
limited $((128 + 25)) get -f card.img new t/f
cmp old t/f || fail "the old file is gone"
alone t f
trap '' XFSZ
limited 74 get -f card.img new t/f
grep -qF "The old one is as it was" err || fail "it did not say that the old one stays: $(cat err)"
cmp old t/f || fail "the old file is gone"
alone t f
# A new one that could not be completed is not left.
rm t/f
limited 74 get card.img new t/f
alone t
trap - XFSZ

# in_full_disk: the words after it, where full/ is a disk of 64 KiB
in_full_disk() {
    # shellcheck disable=SC2016
    unshare -rm bash -euc 'mount -t tmpfs -o size=64k none full && cp old full/f && "$@" && cmp old full/f && [ "$(ls -A full)" = f ]' - "$@"
}
mkdir full
if unshare -rm mount -t tmpfs -o size=64k none full 2>/dev/null; then
    full() {
        status=0
        head -c 20000 /dev/zero >full/fill && "$sfs" get -f card.img new full/f 2>err || status=$?
        rm full/fill
        [ "$status" = 74 ] && grep -q "No space left" err && grep -qF "The old one is as it was" err
    }
    export -f full
    export sfs
    asked=$((asked + 1))
    in_full_disk full || fail "a full disk: $(cat err)"
else
    left+=("a full disk")
fi

# A directory in which nothing can be made. Root obeys permissions only without that capability.
plainly() {
    if [ "$(id -u)" = 0 ]; then
        setpriv --bounding-set=-dac_override,-dac_read_search "$@"
    else
        "$@"
    fi
}
cp old t/f
chmod 555 t
if ! plainly true 2>/dev/null || plainly touch t/x 2>/dev/null; then
    left+=("a directory without permission")
else
    for word in "" -f; do
        status=0
        plainly "$sfs" get $word card.img new t/f 2>err || status=$?
        is "directory without permission $word" 74 "$status"
        cmp old t/f || fail "the old file is gone"
    done
    grep -q "Permission denied" err || fail "no permission: $(cat err)"
fi
chmod 755 t
alone t f

# A symbolic link here: what it names is replaced, and the link stays.
mkdir there
cp old there/f
ln -s ../there/f t/link
refused 74 "-f" get card.img new t/link
done_ get -f card.img new t/link
is "link" "../there/f" "$(readlink t/link)"
cmp new there/f || fail "what the link names was not written"
alone there f
ln -s nowhere t/dangling
refused 74 "what is not there" get -f card.img new t/dangling
refused 74 "" get card.img new t/dangling
is "dangling link" "nowhere" "$(readlink t/dangling)"
[ ! -e t/nowhere ] || fail "a dangling link was followed"
# Below a tree no link is followed: its names come from the card.
done_ mkdir card.img tree
done_ put card.img new tree/f
mkdir -p trees/tree
cp old outside
ln -s ../../outside trees/tree/f
refused 74 "symbolic link" get -r -f card.img tree trees
cmp old outside || fail "a link in a tree was followed"
rm trees/tree/f
done_ get -r -f card.img tree trees
cmp new trees/tree/f || fail "the tree's file is another"
# A symbolic link of the card takes the place of a file or link.
cp old t/f
refused 74 "-f" get card.img soft t/f
done_ get -f card.img soft t/f
is "soft" "short" "$(readlink t/f)"
done_ get -f card.img soft t/link
is "soft for a link" "short" "$(readlink t/link)"
cmp new there/f || fail "the link was followed"

# Devices and pipes are written to, and stay. Root, who could replace those of the machine, gets devices of its own.
full=/dev/full null=/dev/null
if [ "$(id -u)" = 0 ]; then
    full=$work/own-full null=$work/own-null
    if ! mknod "$full" c 1 7 2>/dev/null || ! mknod "$null" c 1 3 2>/dev/null || ! true 2>/dev/null >"$null"; then
        left+=("devices")
        full="" null=""
    fi
fi
if [ -n "$full" ]; then
    for word in "" -f; do
        refused 74 "No space left" get $word card.img new "$full"
        [ -c "$full" ] || fail "$full is no device any more"
        done_ get $word card.img new "$null"
        [ -c "$null" ] || fail "$null is no device any more"
    done
    ln -s "$full" fulllink
    refused 74 "No space left" get -f card.img new fulllink
    is "link to a device" "$full" "$(readlink fulllink)"
    refused 74 "does not take the place" get -f card.img soft "$full"
    [ -c "$full" ] || fail "a symbolic link took the place of a device"
fi
mkfifo pipe
for word in "" -f; do
    timeout 60 cat pipe >got &
    done_ get $word card.img new pipe
    wait $!
    cmp new got || fail "other bytes came through the pipe"
done
[ -p pipe ] || fail "the pipe is none any more"
refused 74 "does not take the place" get -f card.img soft pipe
[ -p pipe ] || fail "a symbolic link took the place of a pipe"

# Standard output.
cmp new <("$sfs" get card.img new -) || fail "other bytes came to standard output"
cmp new <("$sfs" get card.img new /dev/stdout) || fail "other bytes came to /dev/stdout"
echo before >got
"$sfs" get card.img short - >>got
"$sfs" get -f card.img short /dev/stdout >>got
is "appended" "before short short" "$(xargs <got)"
is "a link's text" "short" "$("$sfs" get card.img soft -)"
[ ! -e ./- ] || fail "a file was made for standard output"
refused 5 "directory" get -r card.img tree -
refused 64 "takes one file" get card.img new short -
status=0
"$sfs" get card.img new - >/dev/full 2>err || status=$?
is "full standard output" 74 "$status"

# Directories that are not there.
refused 74 "no such directory" get card.img new short nowhere
refused 74 "no such directory" get card.img new nowhere/
refused 74 "not a directory" get card.img new short old
[ ! -e nowhere ] || fail "something was made"

# The card itself, and a directory, are not replaced.
refused 74 "card itself" get -f card.img new card.img
ln -s card.img cardlink
refused 74 "card itself" get -f card.img new cardlink
mkdir t/short
refused 74 "is a directory" get -f card.img short t
done_ check card.img >/dev/null
echo "$asked answers as expected${left[*]:+; left out: ${left[*]}}"
