#!/usr/bin/env bash
# What the command says, word for word: one cause in each sentence, and the part of a path that is meant.
#   texts.sh SFS
set -euo pipefail
here=$(cd "$(dirname "${BASH_SOURCE[0]}")" && pwd)
# shellcheck source=lib.sh
. "$here/lib.sh"

sample

# Sizes outside their limits.
says 12 "sfs: format: new.img: a card of 61,440 bytes is too small (12 InvalidParam)." "64K to 128M" format new.img 61440
says 12 "sfs: format: new.img: a card of 1 byte is too small (12 InvalidParam)." "64K to 128M" format new.img 1
says 12 "sfs: format: new.img: a card of 1,073,741,824 bytes is too large (12 InvalidParam)." "64K to 128M" format new.img 1G
says 12 "sfs: resize: card.img:d/f: a file has at most 4,294,967,295 bytes, and this would have 4,294,967,296 (12 InvalidParam)." \
    "" resize card.img d/f 4G

# Directories where they cannot go.
says 12 "sfs: mv: card.img:d: a directory cannot go into itself or below (12 InvalidParam)." "outside" mv card.img d d/e
says 7 "sfs: rm: card.img:/: the root directory cannot be removed (7 IsDir)." "format -f" rm -r card.img /
says 7 "sfs: rm: card.img:/: the root directory cannot be removed (7 IsDir)." "format -f" rm card.img /
says 7 "sfs: mv: card.img:/: the root directory cannot be moved (7 IsDir)." "format -f" mv card.img / d/x
says 7 "sfs: rm: card.img:d/..: \".\" and \"..\" cannot be removed (7 IsDir)." "by its name" rm -r card.img d/..
says 7 "sfs: mv: card.img:d/.: \".\" and \"..\" cannot be moved (7 IsDir)." "by its name" mv card.img d/. x
says 7 "sfs: ln: card.img:d: a directory gets no second name (7 IsDir)." "ln -s" ln card.img d e

# A part of a path that is missing, or is no directory: which one, and what helps.
says 10 "sfs: cat: card.img:d/x/y/z: \"d/x\" is not there (10 EntryNotFound)." "sfs ls" cat card.img d/x/y/z
says 10 "sfs: cat: card.img:d/x: there is no such entry (10 EntryNotFound)." "sfs ls" cat card.img d/x
says 10 "sfs: mkdir: card.img:d/x/y/z: \"d/x\" is not there (10 EntryNotFound)." "Give -p" mkdir card.img d/x/y/z
says 10 "sfs: put: card.img:d/x/y/f: \"d/x\" is not there (10 EntryNotFound)." "sfs mkdir -p card.img d/x/y" put card.img f d/x/y/f
says 10 "sfs: put: card.img:new/: there is no such entry (10 EntryNotFound)." "sfs mkdir -p card.img new" put card.img f new/
says 10 "sfs: ln: card.img:x/y: \"x\" is not there (10 EntryNotFound)." "sfs mkdir -p card.img x" ln card.img d/f x/y
says 10 "sfs: mv: card.img:x/y: \"x\" is not there (10 EntryNotFound)." "sfs mkdir -p card.img x" mv card.img d/f x/y
says 10 "sfs: mv: card.img:x/y: \"x\" is not there (10 EntryNotFound)." "sfs ls" mv card.img x/y d
says 10 "sfs: rm: card.img:x/y: \"x\" is not there (10 EntryNotFound)." "sfs ls" rm -r card.img x/y
says 6 "sfs: put: card.img:d/f/x: \"d/f\" is not a directory (6 NotDir)." "Every part" put card.img f d/f/x
says 9 "sfs: mkdir: card.img:d/f: the name is there already (9 EntryExist)." "another name" mkdir -p card.img d/f
says 6 "sfs: mkdir: card.img:d/f/x: \"d/f\" is not a directory (6 NotDir)." "Every part" mkdir -p card.img d/f/x/y
says 6 "sfs: rm: card.img:d/f/x: \"d/f\" is not a directory (6 NotDir)." "Every part" rm card.img d/f/x
says 6 "sfs: tree: card.img:d/f: this is not a directory (6 NotDir)." "Give a directory" tree card.img d/f
says 10 "sfs: put: card.img:x: there is no such entry (10 EntryNotFound)." "sfs mkdir -p card.img x" put card.img f f x
says 6 "sfs: mv: card.img:d/f: this is not a directory (6 NotDir)." "Several things" mv card.img d d d/f
says 9 "sfs: mkdir: card.img:/: the root directory is always there (9 EntryExist)." "" mkdir card.img /
says 7 "sfs: rm: card.img:/: the root directory cannot be removed (7 IsDir)." "format -f" rm card.img ""
# What is advised helps.
done_ mkdir -p card.img d/x/y
done_ put card.img f d/x/y/f
done_ rm -r card.img d/x

# Names.
long=$(printf 'n%.0s' {1..256})
says 8 "sfs: mkdir: card.img:$long: a name has at most 255 bytes, and this one has 256 (8 BadName)." "shorter" mkdir card.img "$long"
says 8 "sfs: put: card.img: f: a name has at most 255 bytes, and this one has 256 (8 BadName)." "shorter" put card.img f "$long"
echo other >d
says 9 "sfs: put: card.img: d: the name is that of a directory on the card already (9 EntryExist)." "sfs rm" put -f card.img d /
rm d
says 9 "sfs: put: card.img: f: the name is that of a file on the card already (9 EntryExist)." "Give -f" put card.img f d/f

# A file that is too short to be a card, or for its own.
head -c 100 card.img >short
says 3 "sfs: check: short: a card has at least 65,536 bytes, and this file has 100 (3 Damaged)." "the file of a card" check short
says 3 "sfs: put: short: a card has at least 65,536 bytes, and this file has 100 (3 Damaged)." "the file of a card" put short f /
says 3 "sfs: df: short: a card has at least 65,536 bytes, and this file has 100 (3 Damaged)." "the file of a card" df short
done_ format whole.img 1M >/dev/null
head -c 700000 whole.img >cut.img
says 3 "sfs: ls: cut.img: the file ends before its card does: 700,000 of 1,048,576 bytes are there (3 Damaged)." "again" ls cut.img
cp card.img broken
printf '\377' | dd of=broken bs=1 seek=8 conv=notrunc status=none
says 3 "sfs: check: broken: the card is damaged: it breaks a rule of a whole card (3 Damaged)." "copy" check broken

# Headings come only before what is there.
refused 3 "" df short
is "df of no card" "" "$(cat out)"
refused 10 "" ls card.img x d
is "ls of nothing" "" "$(cat out)"
refused 10 "" ls card.img d x
is "ls before the missing one" "d: f" "$(xargs <out)"
refused 10 "" ls card.img x
is "ls of one that is missing" "" "$(cat out)"
refused 6 "" tree card.img d/f
is "tree of a file" "" "$(cat out)"
is "ls of a file and directories" "d/f d: f /: d" "$("$sfs" ls card.img d/f d / | xargs)"
is "df of two" 3 "$("$sfs" df card.img whole.img | wc -l)"

# Wrong usage is told with the right one.
says 64 "sfs: put: -: this has no name of its own; give a new one." "" put card.img - /
says 64 "sfs: ls: something is missing after the command; \`sfs ls --help\` tells more." "usage: sfs ls [-l]" ls
says 64 "sfs: mv: there is no option -x; \`sfs mv --help\` tells more." "usage: sfs mv CARD" mv -x card.img d e
says 74 "sfs: ls: nowhere.img: No such file or directory (os error 2)." "sfs format" ls nowhere.img

# One of something.
is "one of each" "1 directory, 1 file" "$("$sfs" tree card.img | tail -n 1)"
is "none" "0 directories, 0 files" "$("$sfs" tree whole.img | tail -n 1)"
done_ put card.img f d/g
done_ mkdir card.img e
is "two of each" "2 directories, 2 files" "$("$sfs" tree card.img | tail -n 1)"
: >empty
done_ put card.img empty /
is "one block" "/empty: 1 block" "$("$sfs" map card.img empty | head -n 1)"
is "two blocks" "/d/f: 2 blocks" "$("$sfs" map card.img d/f | head -n 1)"

# What growth shows is said, and is so: in a block that was another file's, and of a file that was shortened.
"$sfs" resize --help | tr '\n' ' ' | grep -qF 'no file shows them' || fail "resize --help"
done_ format -f card.img 64K >/dev/null
echo "a stranger's words" >secret
done_ put card.img secret /
done_ rm card.img secret
printf A | done_ put card.img - /mine
done_ resize card.img mine 19
is "growth within a block" "A$(printf '%18s' | tr ' ' .)" "$("$sfs" cat card.img mine | tr '\0' .)"
done_ put -f card.img secret mine
done_ resize card.img mine 8
done_ resize card.img mine 12
is "shortened, then lengthened" "a strang...." "$("$sfs" cat card.img mine | tr '\0' .)"
grep -qa " words" card.img || fail "what was cut off, beyond the new length, is not on the card"
echo "$asked answers as expected"
