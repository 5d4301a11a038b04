#!/usr/bin/env bash
# `copy` of a whole card: block for block, only of a card, and CARD is the old one or the new one and nothing between.
#   copy.sh SFS
set -euo pipefail
here=$(cd "$(dirname "${BASH_SOURCE[0]}")" && pwd)
# shellcheck source=lib.sh
. "$here/lib.sh"
left=()

done_ format slow.img 1M >/dev/null
head -c 300000 /dev/urandom >film
done_ put slow.img film /
mkdir t

# alone DIR NAME..: there is nothing else, no file that was begun either
alone() {
    is "files in $1" "$(printf '%s\n' "${@:2}" | sort | xargs)" "$(find "$1" -mindepth 1 -maxdepth 1 -printf '%f\n' | sort | xargs)"
}

# A new file, with what is said of it; and what follows the card's blocks is no part of it.
is "copied" "t/card.img: copied, whole, 256 blocks, $(unused slow.img) unused" "$("$sfs" copy slow.img t/card.img 2>&1)"
cmp slow.img t/card.img || fail "the copy is another"
is "mode" "$(stat -c %a slow.img)" "$(stat -c %a t/card.img)"
alone t card.img
cp slow.img longer.img
head -c 5000 /dev/urandom >>longer.img
done_ copy -q longer.img t/of-longer >out
is "quiet" "" "$(cat out)"
cmp slow.img t/of-longer || fail "the copy of a longer file is another"
rm t/of-longer

# What is there is replaced by -f alone, with its permissions.
echo "the old bytes" >old
cp old t/card.img
chmod 640 t/card.img
says 74 "sfs: copy: t/card.img: this is there already." "give -f" copy slow.img t/card.img
cmp old t/card.img || fail "the old file changed"
done_ copy -f -q slow.img t/card.img
cmp slow.img t/card.img || fail "the new file is another"
is "mode" 640 "$(stat -c %a t/card.img)"
alone t card.img

# A symbolic link stays, and what it names is replaced.
mkdir there
cp old there/f
ln -s ../there/f t/link
done_ copy -q -f slow.img t/link
is "link" "../there/f" "$(readlink t/link)"
cmp slow.img there/f || fail "what the link names was not replaced"
alone there f
ln -s nowhere t/dangling
refused 74 "No such file" copy -f slow.img t/dangling
[ ! -e t/nowhere ] || fail "a dangling link was followed"
rm t/link t/dangling

# No card, a damaged one, and one that is cut: nothing is made, nothing replaced.
cp old t/card.img
head -c 70000 /dev/zero >zeros
says 2 "sfs: copy: zeros: this is no card: its magic number is another (2 WrongFs)." "the file of a card" copy -f zeros t/card.img
says 3 "sfs: copy: old: a card has at least 65,536 bytes, and this file has 14 (3 Damaged)." "the file of a card" copy -f old t/card.img
head -c 700000 slow.img >cut.img
says 3 "sfs: copy: cut.img: the file ends before its card does: 700,000 of 1,048,576 bytes are there (3 Damaged)." "again" copy -f cut.img t/card.img
# One bit of the map is wrong, which is known only when all of it was copied.
cp slow.img broken.img
printf '\377' | dd of=broken.img bs=1 seek=8192 conv=notrunc status=none
says 3 "sfs: copy: broken.img: the card is damaged: it breaks a rule of a whole card (3 Damaged)." "is as it was" copy -f broken.img t/card.img
cmp old t/card.img || fail "the old file is gone"
rm t/card.img
says 3 "sfs: copy: broken.img: the card is damaged: it breaks a rule of a whole card (3 Damaged)." "No new card" copy broken.img t/card.img
alone t
says 74 "sfs: copy: nowhere.img: No such file or directory (os error 2)." "that is there" copy nowhere.img t/card.img
says 74 "sfs: copy: t: this is a directory." "device of a card" copy t u
says 74 "sfs: copy: t: this is a directory." "the new file" copy -f slow.img t
says 74 "sfs: copy: slow.img: this is the card itself." "another name" copy -f slow.img slow.img
ln -s slow.img slow.link
says 74 "sfs: copy: slow.link: this is the card itself." "another name" copy -f slow.img slow.link
refused 74 "No such file" copy slow.img nowhere/card.img
refused 74 "No such file" copy slow.img nowhere/
mkfifo pipe
says 74 "sfs: copy: pipe: this is neither new nor a file." "another name" copy -f slow.img pipe
refused 64 "something is missing" copy slow.img
alone t

# No room: the old file stays, and none that was begun.
cp old t/card.img
trap '' XFSZ
status=0
(
    ulimit -c 0 -f 20
    "$sfs" copy -f slow.img t/card.img 2>err
    exit $?
) || status=$?
is "too long" 74 "$status"
grep -qF "is as it was" err || fail "it did not say that the old one stays: $(cat err)"
cmp old t/card.img || fail "the old file is gone"
alone t card.img
trap - XFSZ
status=0
# By default the system ends a program for that: after it has put things in order.
bash -c 'ulimit -c 0 -f 20; "$@" 2>err; exit $?' - "$sfs" copy -f slow.img t/card.img 2>/dev/null || status=$?
is "ended for that" $((128 + 25)) "$status"
cmp old t/card.img || fail "the old file is gone"
alone t card.img

# A signal in the middle: nothing that was begun is left. Where the copy was quicker than the signal it is complete.
done_ format big.img 128M >/dev/null
ended=0
for _ in 1 2 3 4 5; do
    rm -f t/card.img
    "$sfs" copy -q big.img t/card.img 2>err &
    copying=$!
    until compgen -G 't/*' >/dev/null || compgen -G 't/.sfs-*' >/dev/null || ! kill -0 $copying 2>/dev/null; do :; done
    kill -TERM $copying 2>/dev/null || true
    status=0
    wait $copying || status=$?
    case $status in
    0)
        cmp big.img t/card.img || fail "the copy is not complete"
        alone t card.img
        ;;
    143)
        ended=$((ended + 1))
        alone t
        ;;
    *) fail "a signal: status $status: $(cat err)" ;;
    esac
done
[ $ended -gt 0 ] || left+=("a signal in the middle")
# One that is to be ignored ends nothing.
rm -f t/card.img
(
    trap '' TERM
    exec "$sfs" copy -q big.img t/card.img
) &
copying=$!
until compgen -G 't/*' >/dev/null || compgen -G 't/.sfs-*' >/dev/null || ! kill -0 $copying 2>/dev/null; do :; done
kill -TERM $copying 2>/dev/null || true
wait $copying || fail "a signal that is to be ignored: status $?"
cmp big.img t/card.img || fail "the copy is not complete"
alone t card.img

# The bar: on a terminal only, and not with -q.
"$sfs" copy slow.img t/a 2>err >/dev/null
is "no terminal" "" "$(cat err)"
if command -v script >/dev/null && script -qec true /dev/null >/dev/null 2>&1; then
    script -qec "'$sfs' copy slow.img t/b" /dev/null >seen 2>&1 </dev/null
    grep -qF '] ' seen || fail "no bar on a terminal: $(cat -v seen)"
    grep -qF 't/b: copied' seen || fail "it did not say that the card was copied"
    script -qec "'$sfs' copy -q slow.img t/c" /dev/null >seen 2>&1 </dev/null
    is "quiet on a terminal" "" "$(cat seen)"
else
    left+=("a terminal")
fi
cmp slow.img t/a || fail "the copy is another"
echo "$asked answers as expected${left[*]:+; left out: ${left[*]}}"
