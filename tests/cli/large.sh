#!/usr/bin/env bash
# The largest card: a file as large as it can hold, many files, and a picture of it.
#   large.sh SFS
set -euo pipefail
here=$(cd "$(dirname "${BASH_SOURCE[0]}")" && pwd)
# shellcheck source=lib.sh
. "$here/lib.sh"

done_ format card.img 128M >/dev/null
is "unused" 32764 "$(unused card.img)"
# The most blocks b of a file that fits: with its pointer blocks they are all but the inode's own.
b=32763
while [ $((b + 3 + (b - 1036) / 1024)) -gt 32763 ]; do b=$((b - 1)); done
truncate -s $((b * 4096)) film
printf 'begin' | dd of=film conv=notrunc status=none
printf 'end' | dd of=film bs=1 seek=$((b * 4096 - 3)) conv=notrunc status=none
done_ put card.img film /
is "full" 0 "$(unused card.img)"
done_ get card.img film back
cmp film back || fail "the film is another"
rm back
"$sfs" map card.img >picture
is "picture" "a /  1 3" "$(grep '^a ' picture)"
is "film" "b /film  4-32767" "$(grep '^b ' picture)"
done_ rm card.img film
is "empty" 32764 "$(unused card.img)"

mkdir many
for i in $(seq 200); do echo "file $i" >"many/$i"; done
done_ put -r card.img many /
is "names" 200 "$("$sfs" ls card.img many | wc -l)"
done_ get -r card.img many back
diff -r many back || fail "the files are others"
done_ rm -r card.img many
is "empty again" 32764 "$(unused card.img)"
echo "$asked answers as expected"
