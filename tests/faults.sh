# shellcheck shell=bash disable=SC2034,SC2154
# Sourced by the scripts that put faults into the stand-in, one at a time, and see whether the tests notice them, by the
# rustc of PATH. They use `root`. A fault is a line: the name of a file of tests/standin and a colon, then the text on the left of
# ==> for the one on the right, ";;" between several, \n for the end of a line.

found=0
missed=0

# begin_faults NAME: what the faults for the tests of that name need besides; `oracle` is where the unchanged Rust is
begin_faults() {
    read_options "--host" --host
    use_tools
    out=$root/target/$1/faults
    rm -rf "$out"
    mkdir -p "$out/lib"
    # A fault leaves some things unused.
    flags=(--cap-lints allow)
    oracle=$root/target/oracle/host
    "$root/tests/oracle/build.sh" "$oracle" release
    compile kit "$root/tests/check/kit.rs" --crate-type rlib --out-dir "$out/lib"
}

# edited TEXT LINE: `wrong` is the text with the fault. A fault whose text is not there ends the script.
edited() {
    local rest="${2//\\n/$'\n'} ;; " edit old before
    wrong=$1
    while [ -n "$rest" ]; do
        edit=${rest%% ;; *}
        rest=${rest#* ;; }
        old=${edit%% ==> *}
        before=$wrong
        wrong=${wrong/"$old"/"${edit##* ==> }"}
        if [ "$wrong" = "$before" ]; then
            echo "faults: not in the stand-in: $old"
            exit 1
        fi
    done
}

# standin_with NAME TEXT: the stand-in as the archive, with this text in that file of tests/standin and the others as they are
standin_with() {
    mkdir -p "$out/standin"
    cp "$root/tests/standin/"*.rs "$out/standin/"
    printf '%s\n' "$2" >"$out/standin/$1.rs"
    make_standin "$out/standin/lib.rs"
}

# tried COMMAND..: `status` is how it ended. The inner shell keeps the notice of an abort out of what is printed here.
tried() {
    status=0
    bash -c '"$@"; exit $?' - "$@" >"$out/log" 2>&1 || status=$?
}

# sound COMMAND..: without a fault the command must succeed, or what it says of faults means nothing
sound() {
    tried "$@"
    if [ $status -ne 0 ]; then
        cat "$out/log"
        echo "faults: the tests fail without any fault"
        exit 1
    fi
}

# judge LINE COMMAND..: with the fault, the command must fail: by 1 where it tells of a difference, or by a signal where
# the fault ends the process. Another status is a fault of the tests.
judge() {
    local line=$1
    shift
    tried "$@"
    if [ $status -eq 1 ] || [ $status -ge 128 ]; then
        found=$((found + 1))
        echo "faults: found: $line"
        grep -m 1 'case [0-9]' "$out/log" | cut -c 1-150 || echo "the process was ended"
    else
        missed=$((missed + 1))
        echo "faults: MISSED with status $status: $line"
    fi
}

# each_fault TEXT COMMAND..: standard input has the faults. Those whose line holds TEXT are put in, one at a time; the script's `build`
# makes the tests with it, and COMMAND must notice it. Fails where one was missed.
each_fault() {
    local text=$1 line where
    shift
    standin_with lib "$(cat "$root/tests/standin/lib.rs")"
    build
    sound "$@"
    while IFS= read -r line; do
        case $line in *"$text"*) ;; *) continue ;; esac
        where=${line%%: *}
        edited "$(cat "$root/tests/standin/$where.rs")" "${line#*: }"
        standin_with "$where" "$wrong"
        build
        judge "$line" "$@"
    done
    echo "faults: $found found, $missed missed"
    [ $missed -eq 0 ]
}
