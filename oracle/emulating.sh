# emulating.sh: what the part `emulated` of bin/measure needs: programs for x86-64 over the archives of loops and hub, made by the kit's compiler, the program of
# crates/calls, and an emulator that counts. bin/measure reads it, in the repository's folder, with $room a folder for the run.

# ready: what those programs need. This kit has none of it: it compiles and runs on x86-64 alone, and has no emulator; bin/measure counts there with callgrind.
ready() {
    echo "measure: this kit compiles on x86-64 alone, and has no emulator: 'bin/measure loop traces stack' count there" >&2
    exit 1
}

# emulator CRATE WORDS...: what the program over the archive of a crate says; the instructions of its run are then in $room/count.
emulator() {
    program=$room/$1
    shift
    COUNT=$room/count QEMU_CPU=max,-erms,-fsrm qemu-x86_64 -plugin "$room/emulator.so" "$tools/lib/ld-linux-x86-64.so.2" --library-path "$tools/lib" "$program" "$@"
}

# counted CRATE WORDS...: those instructions.
counted() {
    emulator "$@" >"$room/said"
    cat "$room/count"
}

# script RULES LINE TIMES [FIRST]: for the program of crates/calls: a monitor with so many rules of 16 bytes, the line FIRST, then a line so many times.
script() {
    echo new
    for k in $(seq 11 "$((10 + $1))"); do echo "add_rule 736974652f2b2f726f6f6d2d$(printf '%s' "$k" | od -An -tx1 | tr -d ' ')2f23 allow any 0"; done
    if [ $# -gt 3 ]; then echo "$4"; fi
    for _ in $(seq "$3"); do echo "$2"; done
}

# lines RULES LINE [FIRST]: the instructions of such a line: read, carried out and answered.
lines() {
    script "$1" "$2" 100 ${3+"$3"} >"$room/few"
    script "$1" "$2" 300 ${3+"$3"} >"$room/many"
    few=$(counted calls <"$room/few") many=$(counted calls <"$room/many")
    echo "$(((many - few) / 200))"
}
