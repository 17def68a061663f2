# kept.sh: settings loaded and written where the monitor is kept (bin/measure settings). hub_settings hands no monitor on, so the compiler lays out none there.
# The program here is made in a copy of the crates: it loads two texts and writes both monitors, so that neither call is built into its caller and both can be
# looked at.

# kept FOLDER: the program in FOLDER, proved, built and tried; its input is the longest text.
kept() {
    mkdir -p "$1/.git" "$1/crates/kept/src"
    tar -c --exclude=out crates crates.txt | tar -x -C "$1"
    sed -i 's/^theorems:/kept: cut monitor settings io\n&/' "$1/crates.txt"
    cat >"$1/crates/kept/src/main.rt" <<'END'
#![tactic(auto)]

ghost use Rattle.std.specs.Prelude.{◌≡◌, length};

use cut::upto;
use settings::load::load_settings;
use settings::write::write_settings;

const STDIN_FILENO: i32 = 0;

const STDOUT_FILENO: i32 = 1;

fn buffer() -> [u8; 6144]
    ensures { 6144 ≡ length result }
{
    [0; 6144]
}

fn main() {
    let mut one = buffer();
    let mut other = buffer();
    let n = io::read_full(STDIN_FILENO, &mut one);
    let k = io::read_full(STDIN_FILENO, &mut other);
    let a = load_settings(upto(&one, n));
    let b = load_settings(upto(&other, k));
    let Ok(v) = write_settings(&a.monitor, 1, &mut one) else {
        return;
    };
    let Ok(w) = write_settings(&b.monitor, 1, &mut other) else {
        return;
    };
    io::write_all(STDOUT_FILENO, upto(&one, v));
    io::write_all(STDOUT_FILENO, upto(&other, w));
}
END
    awk 'BEGIN {
        print "form=1\ndefault=block\nthreshold=16\nwindow=600000000\nrules=32"
        for (k = 65; k < 97; k++) {
            pattern = sprintf("%02x", k)
            while (length(pattern) < 128) pattern = pattern pattern
            print "pattern=" pattern "\naction=allow\nqos=only2\nrate=65535"
        }
    }' >"$1/crates/kept/stdin"
    { cat "$1/crates/kept/stdin" && printf 'form=1\ndefault=block\nthreshold=5\nwindow=60000000\nrules=0\n'; } >"$1/crates/kept/stdout"
    (cd "$1/crates/kept" && rt run <stdin | cmp - stdout) >&2
}
