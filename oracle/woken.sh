# woken.sh, for the older kit, whose `rt try` left what it compiled: a run of packets at once and singly, with no trace before it (once bin/measure queue).
# `hub_queue` has a trace's reader in it, which the compiler builds into the same function. So programs are made in a copy of the crates; each is given a
# settings text and packets, and writes the records. `woken` has one call of `run_packets`; `singly` has the public calls for each message: `read_packet` for
# its packet, `message_at`, `inspect` by value and `write_record`. Each does its work twice, the second time on no packets, so that it is not built into
# `main`. `beside` is `woken` with one inspection by value between the two: what the compiler builds into what changes with who calls it, and the stack with
# that. What they call is proved; they themselves are not, and are compiled as rt compiles a proved program, by what is behind `rt try`.

# woken FOLDER INPUT: the programs in FOLDER, compiled and tried on an input of no packets.
woken() {
    mkdir -p "$1/crates/woken/src" "$1/crates/beside/src" "$1/crates/singly/src" "$1/tools/bin"
    cp -R crates crates.txt "$1/"
    sed -i 's/^theorems:/woken: queue settings io libc\nbeside: monitor packets queue settings io libc\nsingly: monitor packets settings trace io libc\n&/' "$1/crates.txt"
    cat >"$1/head" <<'END'
use libc::STDIN_FILENO;
use libc::STDOUT_FILENO;
use monitor::inspection::inspect;
use monitor::state::MqttMonitor;
use packets::messages::message_at;
use packets::packet::read_packet;
use queue::run::run_packets;
use settings::load::load_settings;
use trace::record::write_record;

const AT: u64 = 1000000000;
END
    cat >"$1/once" <<'END'
fn main() {
    let mut text = io::large_buffer();
    let n = io::read_full(STDIN_FILENO, &mut text);
    let from = 2 + text[0] as usize * 256 + text[1] as usize;
    let loaded = load_settings(&text[2..from]);
    let m = loaded.monitor;
    let mut out = io::large_buffer();
END
    {
        grep -v 'inspect\|state\|message\|read_packet\|record' "$1/head"
        cat "$1/once" - <<'END'
    let end = run_packets(m, &text[from..n], AT, true, &mut out);
    let length = end.length;
    let after = end.monitor;
    let last = run_packets(after, &text[n..n], AT, true, &mut out);
    let left = last.monitor;
    io::write_all(STDOUT_FILENO, &out[..length]);
    if left.total_inspected != end.done {
        io::write_all(STDOUT_FILENO, b"?");
    }
}
END
    } >"$1/crates/woken/src/main.rt"
    {
        grep -v 'state\|record' "$1/head"
        sed -n '/^fn main/,$p' "$1/crates/woken/src/main.rt" | sed '/let after/r /dev/fd/3' 3<<'END' | sed 's/run_packets(after/run_packets(next/; s/!= end.done/== 0/'
    let bytes = &text[from..n];
    let packet = read_packet(bytes, 0);
    let x = message_at(bytes, 0, packet.first, AT, true);
    let a = x.topic_from;
    let b = x.topic_to;
    let inspected = inspect(after, x.msg, &bytes[a..b], &bytes[b..b]);
    let next = inspected.monitor;
END
    } >"$1/crates/beside/src/main.rt"
    {
        grep -v 'run_packets' "$1/head"
        cat - "$1/once" <<'END'

fn singly(given: MqttMonitor, bytes: &[u8], out: &mut [u8]) -> usize {
    let mut m = given;
    let mut at: usize = 0;
    let mut n: u64 = 0;
    let mut p: usize = 0;
    while at < bytes.len() {
        let packet = read_packet(bytes, at);
        let mut left = packet.messages;
        let mut step = packet.first;
        while 0 < left {
            let x = message_at(bytes, at, step, AT, true);
            let a = x.topic_from;
            let b = x.topic_to;
            let c = x.payload_from;
            let d = x.payload_to;
            let inspected = inspect(m, x.msg, &bytes[a..b], &bytes[c..d]);
            m = inspected.monitor;
            n += 1;
            let written = write_record(&mut out[p..], n, inspected.result);
            p += written.length;
            step = x.next;
            left -= 1;
        }
        at += packet.length;
    }
    if m.total_inspected != n {
        return 0;
    }
    p
}

END
        cat <<'END'
    let length = singly(m, &text[from..n], &mut out);
    let last = singly(m, &text[n..n], &mut out);
    io::write_all(STDOUT_FILENO, &out[..length]);
    if last != 0 {
        io::write_all(STDOUT_FILENO, b"?");
    }
}
END
    } >"$1/crates/singly/src/main.rt"
    kit=$(rt doc)
    kit=${kit%/docs/*} own=$kit/on/x86_64
    for file in "$own"/toolchain/bin/*; do
        [ "${file##*/}" = clang ] || ln -s "$file" "$1/tools/bin/"
    done
    ln -s "$own/toolchain/lib" "$1/tools/lib"
    cat >"$1/tools/bin/clang" <<END
#!/bin/sh
# The kit's compiler, which keeps the object that it optimises.
"$own/toolchain/bin/clang" "\$@" || exit
case " \$* " in *' -O3 '*) cp module.o "$1/kept.o" ;; esac
END
    chmod +x "$1/tools/bin/clang"
    for name in woken beside singly; do
        # All that the program stands on, as sources: what crates.txt has behind its name, and behind those names.
        set -- "$1" "$2"
        # shellcheck disable=SC2013 # names of crates are words
        for crate in $(awk -v wanted="$name" -F: '
            /^[a-z_]+:/ { below[$1] = $2 }
            function reach(name,    n, k, part) { if (seen[name]++) return; n = split(below[name], part, " "); for (k = 1; k <= n; k++) reach(part[k]); print name }
            END { reach(wanted) }' "$1/crates.txt"); do
            if [ -f "$1/crates/$crate/src/lib.rt" ]; then set -- "$@" --lib "$crate=$1/crates/$crate/src/lib.rt"; fi
            if [ -f "$kit/libs/$crate/src/lib.rt" ]; then set -- "$@" --lib "$crate=$kit/libs/$crate/src/lib.rt"; fi
        done
        folder=$1 input=$2
        shift 2
        : >"$folder/nothing"
        "$own/bin/rattle-cases" --toolchain "$folder/tools" --stdin "$input" --stdout "$folder/nothing" "$folder/crates/$name/src/main.rt" --crate-name "$name" \
            --lib "std=$kit/libs/std/src/lib.rt" "$@" >&2
        cc -o "$folder/$name" "$folder/kept.o"
        set -- "$folder" "$input"
    done
}

# called FUNCTION PROGRAM INPUT: instructions inside a function of a program of oracle/woken.sh, which must write the records that `hub_queue` does.
called() {
    valgrind --quiet --tool=callgrind --collect-atstart=no --toggle-collect="$1" --callgrind-out-file="$room/count" "$room/woken/$2" \
        <"$room/woken/runs/$3" >"$room/records"
    cmp "$room/records" "$room/woken/runs/$3.out" >&2
    sed -n 's/^totals: //p' "$room/count"
}
