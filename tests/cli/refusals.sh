#!/usr/bin/env bash
# What the command says when something is wrong: status, sentence, and a card file that stays.
#   refusals.sh SFS
set -euo pipefail
here=$(cd "$(dirname "${BASH_SOURCE[0]}")" && pwd)
# shellcheck source=lib.sh
. "$here/lib.sh"

sample

# The library's refusals, each with its number.
head -c 65536 /dev/urandom >noise
refused 2 "no card" check noise
refused 2 "no card" ls noise
cp card.img broken
printf '\377' | dd of=broken bs=1 seek=8 conv=notrunc status=none
refused 3 "damaged" check broken
refused 3 "damaged" put broken f /
head -c 40000 card.img >short
refused 3 "at least 65,536 bytes" check short
: >none
refused 3 "at least 65,536 bytes" check none
refused 5 "directory" cat card.img d
refused 5 "directory" resize card.img d 0
refused 6 "not a directory" put card.img f d/f/x
refused 6 "not a directory" tree card.img d/f
refused 7 "Give the directory by its name" rm card.img d/..
refused 7 "root directory" rm -r card.img /
refused 7 "ln -s" ln card.img d e
refused 8 "255 bytes" mkdir card.img "$(printf 'n%.0s' {1..256})"
refused 9 "already" mkdir card.img d
refused 9 "already" mv card.img d/f d
refused 10 "no such entry" cat card.img d/g
refused 10 "no such entry" mv card.img g h
refused 10 "no such entry" put card.img f new/
refused 11 "not empty" rm card.img d
refused 12 "into itself" mv card.img d d/e
refused 12 "4,294,967,295" resize card.img d/f 4G
refused 12 "64K to 128M" format new.img 61440
refused 12 "64K to 128M" format new.img 1G
[ ! -e new.img ] || fail "a refused format left a file"
refused 14 "df" resize card.img d/f 1M

# All or nothing: the second of two cannot be done.
refused 10 "no such entry" rm card.img d/f d/g
refused 9 "already" mkdir card.img x d
refused 10 "no such entry" mv card.img d/f nothing /

# This machine's files, and wrong usage.
refused 74 "No such file" check nowhere.img
refused 74 "is a directory" check .
refused 74 "No such file" put card.img nowhere /
mkdir t
refused 74 "-r" put card.img t /
refused 74 "-r" get card.img d t
done_ get card.img d/f t
refused 74 "-f" get card.img d/f t
done_ get -f card.img d/f t
refused 74 "-f" format card.img
refused 74 "-f" format noise
truncate -s 3G huge
refused 14 "too few" put card.img huge /
truncate -s 5G huge
refused 12 "4,294,967,295" put card.img huge /
rm huge
refused 64 "no such command" frobnicate card.img
refused 64 "missing" ls
refused 64 "no option" ls -x card.img
refused 64 "no size" resize card.img d/f 12Q
refused 64 "needs a size" format new.img
[ "$("$sfs" --help | wc -l)" -gt 10 ] || fail "help"
for command in format check info ls tree cat put get mkdir ln rm mv resize df map; do
    "$sfs" "$command" --help | grep -q "usage: sfs $command" || fail "$command --help"
done

# A name on the card with a slash, which only other programs can make: it leads nowhere else here.
name='..,..,escape'
echo bad >"$name"
done_ mkdir card.img s
done_ put card.img "$name" s
LC_ALL=C sed -i 's/\.\.,\.\.,escape/..\/..\/escape/' card.img
done_ check card.img >/dev/null
mkdir -p inner/inner
refused 74 "slash" get -r card.img s inner/inner
if [ -e escape ] || [ -e inner/escape ]; then fail "a file was written outside of its directory"; fi
# A reader that has enough is no fault.
"$sfs" tree card.img | head -n 1 >/dev/null
echo "$asked answers as expected"
