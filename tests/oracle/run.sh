#!/usr/bin/env bash
# Runs every script of examples/ against the unchanged Rust and compares with the recorded answers.
#
#   run.sh            for x86-64, by the tools of tests/tools.sh
#   run.sh --host     by the rustc of PATH, for this machine
#   run.sh --record   writes the recorded answers anew (with --host or without)
#
# NAME.expected holds the answers of NAME.txt in both profiles; where they differ, NAME.debug.expected and
# NAME.release.expected do. An `expect` or `differs` that fails, fails the run whatever is recorded. A script
# named ends-* must end the process by an abort, every other one must run to its end.
set -euo pipefail
ulimit -c 0

here=$(cd "$(dirname "${BASH_SOURCE[0]}")" && pwd)
root=$(cd "$here/../.." && pwd)
# shellcheck source=../tools.sh
. "$here/../tools.sh"

read_options "--host --record" "$@"
use_tools
out=$root/target/oracle/$place

for profile in debug release; do
    "$here/build.sh" "$out" $profile
done

# recorded NAME PROFILE: the file of recorded answers
recorded() {
    if [ -f "$here/examples/$1.$2.expected" ]; then
        echo "$here/examples/$1.$2.expected"
    else
        echo "$here/examples/$1.expected"
    fi
}

scripts=0
failed=0
for script in "$here"/examples/*.txt; do
    name=$(basename "$script" .txt)
    scripts=$((scripts + 1))
    result=agrees
    for profile in debug release; do
        answers=$out/$profile/$name.answers
        wanted=0
        case $name in ends-*) wanted=134 ;; esac
        status=0
        # The inner shell keeps the notice of an abort out of what is printed here.
        bash -c '"$@"; exit $?' - "${run[@]}" "$out/$profile/sfs_oracle" <"$script" >"$answers" \
            2>"$answers.err" || status=$?
        if [ $status -ne $wanted ]; then
            result="FAILED in $profile with $status: see $answers"
            break
        fi
        if ! asked --record && ! diff -u "$(recorded "$name" $profile)" "$answers"; then
            result="DIFFERS from the recorded answers in $profile"
            break
        fi
    done
    if asked --record && [ "$result" = agrees ]; then
        rm -f "$here/examples/$name".{,debug.,release.}expected
        if cmp -s "$out/debug/$name.answers" "$out/release/$name.answers"; then
            cp "$out/debug/$name.answers" "$here/examples/$name.expected"
        else
            cp "$out/debug/$name.answers" "$here/examples/$name.debug.expected"
            cp "$out/release/$name.answers" "$here/examples/$name.release.expected"
        fi
        result=recorded
    fi
    case $result in agrees | recorded) ;; *) failed=$((failed + 1)) ;; esac
    echo "$name: $result"
done

if [ $failed -gt 0 ]; then
    echo "oracle: $failed of $scripts scripts fail" >&2
    exit 1
fi
echo "oracle: $scripts scripts agree"
