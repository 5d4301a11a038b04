#!/usr/bin/env bash
# What the library's calls cost beside plain ones in Rust and beside the unchanged Rust: one table, which also goes into
# docs/PERFORMANCE.md where instructions of the library were counted, or times taken on an x86-64 machine.
#
#   run.sh               for x86-64, with the archive that `make` leaves (SFS_LIB: another one)
#   run.sh --stand-in    with the plain ones themselves in the archive's place: the ratios are then near 1
#   run.sh --host        the stand-in, by the rustc of PATH, for this machine
#   run.sh --time        times, and no count of instructions
# BENCH_ONLY=cache: the rows of the block cache alone, printed and put nowhere
#
# Executed instructions are counted by the emulator where it runs the program (bench/insn.rs), by valgrind where
# the machine does; without either, times in one run are compared. The first line says which.
#
# The emulator is the baseline processor that the library is compiled for, on which the C library's copies have vectors of
# 16 bytes too (SFS_CPU: another one, as max,-erms with vectors of 32; its table is printed alone). By valgrind the C library is
# told to take that one's copies; with SFS_CPU=max those of this machine, but none by "rep movsb", of which valgrind counts every byte.
set -euo pipefail

here=$(cd "$(dirname "${BASH_SOURCE[0]}")" && pwd)
root=$(cd "$here/.." && pwd)
# shellcheck source=../tests/tools.sh
. "$root/tests/tools.sh"

read_options "--stand-in --host --time" "$@"
use_tools
if [ -n "$RUN" ]; then run=(qemu-x86_64 -cpu "${SFS_CPU:-qemu64}"); fi
out=$root/target/bench/$place
mkdir -p "$out/lib"
# Measured as it is used: sums are not watched.
flags=()
take_archive "$root/tests/standin/lib.rs"
compile kit "$root/tests/check/kit.rs" --crate-type rlib --out-dir "$out/lib"
"$root/tests/oracle/build.sh" "$root/target/oracle/$place" release
compile bench "$here/main.rs" --extern kit -L "$root/target/oracle/$place/release" --extern oracle --extern rcore_fs \
    --extern rcore_fs_sfs --extern by_number -o "$out/bench"

# Whether the emulator counts. Its plugin is a library of this machine, so it is built without the target's flags.
# Without words the program says how it is used and ends with 2: then it was run.
counting() {
    local status=0
    "${rustc[0]}" --edition 2021 --crate-name insn --crate-type cdylib -C opt-level=2 -o "$out/libinsn.so" \
        "$here/insn.rs" 2>"$out/insn.log" || return 1
    "${run[@]}" -plugin "file=$out/libinsn.so" "$out/bench" 2>>"$out/insn.log" || status=$?
    [ $status -eq 2 ]
}

how="time"
unit="microseconds, the least of several${RUN:+, under the emulator: only ratios mean anything}"
if asked --time; then
    :
elif [ -n "$RUN" ] && counting; then
    how=marks
    unit="instructions, counted by qemu (bench/insn.rs)"
elif [ -z "$RUN" ] && command -v valgrind >/dev/null; then
    how=valgrind
    unit="instructions, counted by valgrind"
fi

copies=-ERMS,-FSRM
if [ -z "${SFS_CPU:-}" ]; then copies+=,-AVX2,-AVX512F,-AVX512VL,-AVX_Fast_Unaligned_Load; fi

# Lines CASE|PART|NUMBER
measure() {
    local name n
    case $how in
    marks)
        "${run[@]}" -plugin "file=$out/libinsn.so" "$out/bench" marks 2>"$out/marks" || { cat "$out/marks" >&2 && return 1; }
        # Three marks a part. What lies between the first two is the cost of marking.
        awk '/^part / { name = substr($0, 6); marks = 0 }
             /^mark / { at[++marks] = $2; if (marks == 3) printf "%s|%d\n", name, at[3] - at[2] - (at[2] - at[1]) }' \
            "$out/marks"
        ;;
    valgrind)
        # A dump a part, numbered from 1 on.
        rm -f "$out/dump".*
        GLIBC_TUNABLES=glibc.cpu.hwcaps=$copies valgrind --tool=callgrind --callgrind-out-file="$out/dump" --toggle-collect=measured --dump-after=measured \
            "$out/bench" each >"$out/parts" 2>"$out/valgrind.log" || { cat "$out/valgrind.log" >&2 && return 1; }
        n=0
        while read -r name; do
            n=$((n + 1))
            awk -v name="$name" '/^totals:/ { print name "|" $2 }' "$out/dump.$n"
        done <"$out/parts"
        ;;
    time) "${run[@]}" "$out/bench" time ;;
    esac
}

echo "bench: $unit"
measure >"$out/measured"
times=0
if [ "$how" = time ]; then times=1; fi
awk -v times=$times -f "$here/table.awk" "$out/measured" | tee "$out/table"

# The tables stand in the document between lines of their own: instructions, and times where the machine is x86-64 itself.
if [ -n "${SFS_CPU:-}${BENCH_ONLY:-}" ] || asked --stand-in || asked --host; then exit 0; fi
if [ "$how" != time ]; then
    title="table of bench/run.sh"
elif [ -z "$RUN" ]; then
    title="times of bench/run.sh --time"
else
    exit 0
fi
document=$root/docs/PERFORMANCE.md
awk -v table="$out/table" -v begin="<!-- $title -->" '/^<!-- end of the table -->$/ { inside = 0 }
    !inside { print }
    $0 == begin { inside = 1; while ((getline line < table) > 0) print line }' "$document" >"$out/document"
cp "$out/document" "$document"
echo "bench: the table is in docs/PERFORMANCE.md"
