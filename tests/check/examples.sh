#!/usr/bin/env bash
# Puts every example of examples.txt to a command that reads a card from standard input: examples.sh COMMAND..
# The inputs stand in CHECK_EXAMPLES (default target/check/x86_64/examples), where run.sh has them made.
set -uo pipefail
here=$(cd "$(dirname "${BASH_SOURCE[0]}")" && pwd)
dir=${CHECK_EXAMPLES:-$here/../../target/check/x86_64/examples}
if [ $# -eq 0 ]; then
    echo "usage: examples.sh COMMAND.." >&2
    exit 2
fi
count=0
failed=0
for input in "$dir"/*.in; do
    expected=${input%.in}.expected
    [ -f "$expected" ] || continue
    count=$((count + 1))
    # The command's own end counts too: a program that prints the line and then fails does not pass.
    said=$("$@" <"$input"; echo "exit $?")
    if [ "$said" != "$(cat "$expected"; echo "exit 0")" ]; then
        failed=$((failed + 1))
        echo "examples: $(basename "$input" .in): expected $(cat "$expected"), got ${said//$'\n'/, }"
    fi
done
if [ $failed -gt 0 ] || [ $count -eq 0 ]; then
    echo "examples: $failed of $count fail"
    exit 1
fi
echo "examples: $count agree"
