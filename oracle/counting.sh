# counting.sh: what the parts of bin/measure share that count instructions: hosts over the Rust original and an archive, and tables of what callgrind counts in
# them, both sides on the same input in the same run. bin/measure reads it, in the repository's folder, with $room a folder for the run.

# What is counted is x86-64: the archive, the names that callgrind is told, the way in which a stack is painted.
counting() {
    if [ "$(uname -m)" != x86_64 ]; then
        echo 'measure: instructions and stacks are counted on x86-64 only; run this part there' >&2
        exit 1
    fi
}

# The original, built once a run.
original() {
    counting
    [ -e "$room/built" ] || oracle/build
    touch "$room/built"
}

# host [--lto] NAME: builds a program of oracle/src over the original and the archives of hub, desk, boot, jack and wake.
host() {
    original
    if [ -z "${HUB_ARCHIVE-}" ]; then
        for crate in hub desk boot jack wake; do oracle/archive "$crate" >&2; done
        HUB_ARCHIVE=$root/target/staticlib
    fi
    oracle/host "$@" "$HUB_ARCHIVE" hub desk boot jack wake
}

# The traces that we measure with, in $room/traces.
written() {
    [ ! -d "$room/traces" ] || return 0
    host benchtraces
    mkdir "$room/traces"
    target/oracle/benchtraces write "$room/traces"
}

# counts NAMES HOST WORDS...: counts inside hub_NAME, rust_NAME and paho_NAME while the host runs. $room/counts then has a line for each row: its name, its
# parts, both counts. Each return of row_done ends one count, in a file of its own: the odd ones are ours.
counts() {
    counted=
    for name in $1; do
        counted="$counted --toggle-collect=hub_$name --toggle-collect=rust_$name --toggle-collect=paho_$name"
    done
    shift
    valgrind --quiet --tool=callgrind --collect-atstart=no $counted --dump-after=row_done \
        --callgrind-out-file="$room/count" "$@" >"$room/rows"
    turn=0
    while IFS='|' read -r name parts; do
        ours=$(sed -n 's/^totals: //p' "$room/count.$((turn + 1))")
        theirs=$(sed -n 's/^totals: //p' "$room/count.$((turn + 2))")
        turn=$((turn + 2))
        echo "$name|$parts|$ours|$theirs"
    done <"$room/rows" >"$room/counts"
    rm -f "$room"/count.*
}

# table NAMES HOST WORDS...: the counts, divided by the parts.
table() {
    counts "$@"
    echo '| What | Rattle | Rust | Ratio |'
    echo '|---|---|---|---|'
    awk -F'|' '{ a = int($3 / $2); b = int($4 / $2); printf "| %s | %d | %d | %.2f |\n", $1, a, b, a / b }' "$room/counts"
}

# differences NAMES HOST WORDS...: each two rows are one: what the second counted more, divided by the parts that it has more.
differences() {
    counts "$@"
    echo '| What | Rattle | Rust | Ratio |'
    echo '|---|---|---|---|'
    awk -F'|' '
        NR % 2 { parts = $2; ours = $3; theirs = $4; next }
        { n = $2 - parts; a = ($3 - ours) / n; b = ($4 - theirs) / n; printf "| %s | %d | %d | %.2f |\n", $1, a, b, a / b }' "$room/counts"
}

# passes NAMES HOST WORDS...: each two rows are one, a buffer that takes one pass and one of exactly the answer's length, divided by the parts; beside it the
# Rust of the same host built with --lto.
passes() {
    names=$1 program=$2
    shift 2
    counts "$names" "$program" "$@"
    mv "$room/counts" "$room/plain"
    counts "$names" "$program-lto" "$@"
    echo '| What | Rattle | exact buffer | Rust | Ratio | exact | Rust, LTO | Ratio | exact |'
    echo '|---|---|---|---|---|---|---|---|---|'
    paste -d'|' "$room/plain" "$room/counts" | awk -F'|' '
        NR % 2 { roomy = int($3 / $2); next }
        {
            exact = int($3 / $2); rust = int($4 / $2); lto = int($8 / $2)
            printf "| %s | %d | %d | %d | %.2f | %.2f | %d | %.2f | %.2f |\n", $1, roomy, exact, rust, roomy / rust, exact / rust, lto, roomy / lto, exact / lto
        }'
}
