#!/usr/bin/env bash
# A card made, filled, checked and listed, for people to look at: `make try`.
#   try.sh [--stand-in | --host]
set -euo pipefail
# shellcheck source=build.sh disable=SC2154
. "$(dirname "${BASH_SOURCE[0]}")/build.sh"
announce
build_for "$@"
work=$(mktemp -d)
trap 'rm -rf "$work"' EXIT
cd "$work"

show() {
    printf '\n$ sfs'
    printf ' %s' "$@"
    printf '\n'
    "$sfs" "$@" 2>&1 || echo "(exit status $?)"
}

mkdir -p trip/photos
echo "left at dawn" >trip/log
head -c 14000 /dev/urandom >trip/photos/one
head -c 9000 /dev/urandom >trip/photos/two
head -c 40000 /dev/urandom >trip-film
ln -s photos/one trip/best

show format card.img 96K
show put -r card.img trip /
show tree card.img
show check card.img
show df card.img
show map card.img
echo
echo "A file that does not fit is refused, and the card stays as it is:"
cp card.img before.img
show put card.img trip-film /
cmp before.img card.img && echo "the card file is the same, byte for byte"
show ls -l card.img /trip
show get -r card.img /trip back
diff -r trip back && echo "what came back is what was put"
echo
echo "The command is $sfs"
