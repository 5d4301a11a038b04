# shellcheck shell=bash disable=SC2034
# Sourced by the tests of the command: a folder to work in, and what they ask.
sfs=$1
work=$(mktemp -d)
trap 'rm -rf "$work"' EXIT
cd "$work" || exit 1
asked=0

fail() {
    echo "FAILED: $*" >&2
    exit 1
}

# is WHAT EXPECTED GOT
is() {
    asked=$((asked + 1))
    [ "$2" = "$3" ] || fail "$1: expected '$2', got '$3'"
}

# done_ WORDS..: the command with these words must be done, and say nothing on standard error
done_() {
    asked=$((asked + 1))
    "$sfs" "$@" 2>err || fail "sfs $*: status $?: $(cat err)"
    [ ! -s err ] || fail "sfs $*: it said: $(cat err)"
}

# refused STATUS TEXT WORDS..: it must end with that status, say TEXT, and leave the card file (the second word that is no
# option) as it was, byte for byte
refused() {
    local status=$1 text=$2 word card="" got=0
    shift 2
    for word in "${@:2}"; do
        [[ $word == -* ]] || { card=$word && break; }
    done
    asked=$((asked + 1))
    [ ! -f "$card" ] || cp "$card" before
    "$sfs" "$@" >out 2>err || got=$?
    [ "$got" = "$status" ] || fail "sfs $*: status $got, not $status: $(cat err)"
    grep -qF -- "$text" err || fail "sfs $*: it did not say '$text': $(cat err)"
    [ ! -f "$card" ] || cmp -s "$card" before || fail "sfs $*: refused, but the card file changed"
}

# says STATUS LINE ADVICE WORDS..: refused as above, with exactly that first line; ADVICE is in what follows, or is empty and
# nothing follows
says() {
    local line=$2 advice=$3
    refused "$1" "" "${@:4}"
    [ "$(head -n 1 err)" = "$line" ] || fail "sfs ${*:4}: it said '$(head -n 1 err)', not '$line'"
    if [ -n "$advice" ]; then
        tail -n +2 err | grep -qF -- "$advice" || fail "sfs ${*:4}: it did not advise '$advice': $(cat err)"
    else
        [ "$(wc -l <err)" = 1 ] || fail "sfs ${*:4}: it said more: $(cat err)"
    fi
}

# sample: card.img, with the directory d and in it the file f, which is here too
sample() {
    done_ format card.img 64K >/dev/null
    done_ mkdir card.img d
    echo text >f
    done_ put card.img f d/f
}

unused() {
    "$sfs" check "$1" | sed 's/.*, \([0-9,]*\) unused/\1/' | tr -d ,
}
