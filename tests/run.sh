#!/usr/bin/env bash
# The outside tests: what is compared with programs that Rattle does not prove. As many run at once as there are processors; what
# each says stays together and in order.
#   ALLOW_MISSING=yes   go on where their tools cannot be had
#   OUTSIDE="oracle .." only these; `host` is the oracle by the compiler of PATH, where that is another one
#   TIMES=FILE          lines NAME SECONDS are added to it, and a line `left-out WHAT` for each that was not run
# Without the Rust sources what needs them is left out, and said; where CI is set, or SFS_SOURCES to a wrong place, that is a failure.
set -uo pipefail
here=$(cd "$(dirname "${BASH_SOURCE[0]}")" && pwd)
# shellcheck disable=SC2034
root=$(cd "$here/.." && pwd)
# shellcheck source=tools.sh
. "$here/tools.sh"

# The longest first, so that the last ones fill what is left.
tests=${OUTSIDE:-cli check files calls dirs replay cache oracle host docs}
times=${TIMES:-/dev/null}
logs=$(mktemp -d)
trap 'rm -rf "$logs"' EXIT
failed=0

has() {
    [[ " $tests " == *" $1 "* ]]
}

# What is compared with the Rust as it runs; check, replay and cache have parts that are not.
if ! find_sources; then
    left=
    kept=
    for test in $tests; do
        case $test in
        oracle | files | calls | dirs) left+=" $test" ;;
        host) ;;
        check) left+=" check:made-cards" kept+=" check" ;;
        replay) left+=" replay:recording-made-again" kept+=" replay" ;;
        cache) left+=" cache:beside-the-Rust" kept+=" cache" ;;
        *) kept+=" $test" ;;
        esac
    done
    tests=$kept
    if [ -n "$left" ]; then
        say_sources
        echo "outside: left out without them:$left"
        echo "outside: the Rust's answers are compared as recorded (crates/replay, docs/PROOFS.md)"
        for part in $left; do echo "left-out $part" >>"$times"; done
        if [ -n "${CI:-}${SFS_SOURCES:-}" ]; then
            echo "outside: FAILED: the Rust sources are not at hand, though CI or SFS_SOURCES is set"
            failed=1
        fi
    fi
fi

# The archive that the tests link, from what was just proved.
if has check || has files || has calls || has dirs || has cache || has cli; then
    began=$SECONDS
    if ! make_archive; then
        echo "outside: FAILED: the archive is not made"
        failed=1
    fi
    echo "archive $((SECONDS - began))" >>"$times"
fi

built=yes
if ! need_outside_tools; then
    built=no
    left=${tests/ host/}
    left=${left/ docs/}
    echo "outside: left out, as programs for x86-64 cannot be built here: $left"
    for test in $left; do echo "left-out $test" >>"$times"; done
    [ "${ALLOW_MISSING:-no}" = yes ] || failed=1
fi
export SFS_CHECK="$here/program.sh sfs_check"

# one TEST: its script
one() {
    case $1 in
    host) "$here/oracle/run.sh" --host ;;
    *) "$here/$1/run.sh" ;;
    esac
}

# The Rust's answers do not hang on the compiler: `host` has them once more by the one of PATH, if it is another one.
can() {
    case $1 in
    host) [ "$(uname -m)" != x86_64 ] && command -v rustc >/dev/null ;;
    docs) true ;;
    *) [ "$built" = yes ] ;;
    esac
}

# timed TEST: what it says in its log, how long it took, and whether it failed
timed() {
    local began=$SECONDS
    one "$1" >"$logs/$1" 2>&1 || : >"$logs/$1.failed"
    echo "$1 $((SECONDS - began))" >"$logs/$1.time"
}

started=()
running=0
for test in $tests; do
    can "$test" || continue
    if [ "$running" -ge "$(nproc)" ]; then
        wait -n
        running=$((running - 1))
    fi
    timed "$test" &
    started+=("$test")
    running=$((running + 1))
done
wait
for test in "${started[@]}"; do
    echo "outside: $test"
    cat "$logs/$test"
    cat "$logs/$test.time" >>"$times"
    if [ -e "$logs/$test.failed" ]; then
        echo "outside: FAILED: $test"
        failed=1
    fi
done
exit "$failed"
