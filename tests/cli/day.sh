#!/usr/bin/env bash
# A day with the command: a card is made, filled to the last block, refused, checked, moved about, emptied, and its trees
# compared with what was put.
#   day.sh SFS
set -euo pipefail
here=$(cd "$(dirname "${BASH_SOURCE[0]}")" && pwd)
# shellcheck source=lib.sh
. "$here/lib.sh"

# A tree with files of every shape: empty, within a block, of whole blocks, with a pointer block, names of odd bytes.
mkdir -p tree/deep/er tree/empty
: >tree/nothing
echo "a line" >tree/line
head -c 4096 /dev/urandom >tree/block
head -c 45057 /dev/urandom >tree/deep/pointers
head -c 100000 /dev/urandom >"tree/deep/er/with space"
echo x >tree/$'bytes\xff\xfe'
echo y >tree/ünïcode
ln -s ../line tree/deep/link
ln -s nowhere tree/dangling

is "format" "card.img: an empty card of 256 blocks" "$("$sfs" format card.img 1M)"
is "check" "card.img: whole, 256 blocks, 252 unused" "$("$sfs" check card.img)"
is "length" 1048576 "$(stat -c %s card.img)"
done_ put -r card.img tree /
done_ check card.img >/dev/null
done_ get -r card.img /tree back
diff -r --no-dereference tree back || fail "what came back is not what was put"
is "link" "../line" "$(readlink back/deep/link)"

# Names and numbers.
is "ls" "block dangling deep empty line nothing" "$("$sfs" ls card.img tree | grep -a '^[a-z]*$' | grep -av bytes | xargs)"
is "cat" "a line" "$("$sfs" cat card.img tree/line)"
is "cat two" "a line a line" "$("$sfs" cat card.img /tree/line tree//deep/../line | xargs)"
is "long" "- 1 7 line" "$("$sfs" ls -l card.img tree | awk '$NF == "line" { print $1, $3, $4, $5 }' | head -n 1)"
is "arrow" "link -> ../line" "$("$sfs" ls -l card.img tree/deep | sed -n 's/.*\(link -> .*\)/\1/p')"
is "all" 2 "$("$sfs" ls -a card.img tree/empty | wc -l)"
"$sfs" tree card.img | grep -qF '`-- with space  100000' || fail "tree"
is "info" "size    45,057" "$("$sfs" info card.img tree/deep/pointers | grep size)"

# Moved, linked, and everything still there.
done_ mkdir -p card.img a/b/c
done_ mv card.img tree/deep a/b/c
done_ mv card.img tree/line tree/block a
done_ mv card.img a/line a/renamed
done_ ln card.img a/renamed a/again
done_ ln -s card.img renamed a/soft
is "again" "a line" "$("$sfs" cat card.img a/again)"
is "links" "links   2" "$("$sfs" info card.img a/renamed | grep links)"
is "soft" "renamed" "$("$sfs" cat card.img a/soft)"
done_ get -r card.img a/b/c/deep deep
diff -r --no-dereference tree/deep deep || fail "the moved tree is another"
done_ rm card.img a/renamed
is "still" "a line" "$("$sfs" cat card.img a/again)"
done_ check card.img >/dev/null

# To the last block: what is left takes exactly one file, and then nothing more.
free=$(unused card.img)
# The file's own inode and one pointer block go off; the entry fits into the root's block.
len=$(((free - 2) * 4096))
head -c "$len" /dev/urandom >last
head -c $((len + 1)) /dev/urandom >toolong
refused 14 "too few unused blocks" put card.img toolong /
done_ put card.img last /
is "full" 0 "$(unused card.img)"
echo more >"more"
refused 14 "too few unused blocks" put card.img more /
refused 14 "too few unused blocks" mkdir card.img d
refused 14 "too few unused blocks" ln -s card.img text s
refused 14 "too few unused blocks" resize card.img last "$((len + 1))"
done_ get card.img last last.back
cmp last last.back || fail "the last file is another"
is "percent" "100" "$("$sfs" df card.img | awk 'NR == 2 { print $4 }')"
# A tree of which only the first files fit.
done_ resize card.img last $((len - 5 * 4096))
mkdir part
echo one >part/1
head -c 9000 /dev/urandom >part/2
echo three >part/3
status=0
"$sfs" put -r card.img part / 2>err || status=$?
is "part" 14 "$status"
if ! grep -q "part/2" err || ! grep -q "2 things were put before it" err; then fail "it did not say what was left: $(cat err)"; fi
is "part's files" "1" "$("$sfs" ls card.img part | xargs)"
done_ check card.img >/dev/null
cmp <("$sfs" cat card.img last) <(head -c $((len - 5 * 4096)) last) || fail "the last file changed"

# Replaced, and emptied.
echo "another line" >line
refused 9 "-f" put card.img line a/again
done_ put -f card.img line a/again
is "replaced" "another line" "$("$sfs" cat card.img a/again)"
refused 11 "rm -r" rm card.img a
done_ rm -r card.img a tree part last
is "empty" 252 "$(unused card.img)"
is "nothing" "" "$("$sfs" ls card.img)"
echo "from a pipe" | done_ put card.img - /pipe
is "pipe" "from a pipe" "$("$sfs" cat card.img pipe)"
echo "$asked answers as expected"
