//! What every comparison shares: the seeds of a run, a small generator of random numbers, and classes that count
//! their comparisons, keep the smallest input on which the two sides differ, and end in one tally.

use std::fmt::Debug;

/// The seed that every run repeats, beside its fresh one.
pub const FIXED_SEED: u64 = 20_260_701;

/// The fixed seed and a fresh one, or the number after `--seed` in place of the fresh one; both are printed.
pub fn seeds(words: &[String]) -> [u64; 2] {
    let now = || std::time::UNIX_EPOCH.elapsed().map_or(1, |t| t.as_nanos() as u64);
    let fresh = match words {
        [] => now(),
        [flag, seed] if flag == "--seed" => seed.parse().expect("the seed is a number"),
        _ => panic!("usage: [--seed N]"),
    };
    println!("seeds: {FIXED_SEED} (fixed) and {fresh} (--seed {fresh} repeats this run)");
    [FIXED_SEED, fresh]
}

/// splitmix64: short, and good enough to choose inputs with.
pub struct Random(pub u64);

impl Random {
    pub fn next(&mut self) -> u64 {
        self.0 = self.0.wrapping_add(0x9e37_79b9_7f4a_7c15);
        let mut z = self.0;
        z = (z ^ (z >> 30)).wrapping_mul(0xbf58_476d_1ce4_e5b9);
        z = (z ^ (z >> 27)).wrapping_mul(0x94d0_49bb_1331_11eb);
        z ^ (z >> 31)
    }

    /// A number below `n`.
    pub fn below(&mut self, n: usize) -> usize {
        (self.next() % n as u64) as usize
    }

    /// True once in `n` times.
    pub fn one_in(&mut self, n: usize) -> bool {
        self.below(n) == 0
    }

    pub fn pick<T: Copy>(&mut self, from: &[T]) -> T {
        from[self.below(from.len())]
    }

    /// `len` bytes, each picked from `alphabet`.
    pub fn bytes(&mut self, len: usize, alphabet: &[u8]) -> Vec<u8> {
        (0..len).map(|_| self.pick(alphabet)).collect()
    }
}

/// Bytes for a reader: as text where they print, else escaped.
pub fn show(bytes: &[u8]) -> String {
    format!("{} bytes \"{}\"", bytes.len(), bytes.escape_ascii())
}

/// One named class of comparison; it counts as one test.
pub struct Class {
    name: String,
    compared: u64,
    differed: u64,
    smallest: Option<(usize, String)>,
    notes: Vec<String>,
}

impl Class {
    pub fn new(name: impl Into<String>) -> Class {
        Class { name: name.into(), compared: 0, differed: 0, smallest: None, notes: Vec::new() }
    }

    /// Counts one comparison of two answers to `input`.
    #[inline]
    pub fn same<T: PartialEq + Debug>(&mut self, input: &[&[u8]], hub: T, rust: T) {
        self.compared += 1;
        if hub != rust {
            let size = input.iter().map(|part| part.len()).sum();
            self.differ(size, || {
                let parts: Vec<String> = input.iter().map(|part| show(part)).collect();
                format!("{}: hub {hub:?}, expected {rust:?}", parts.join(" and "))
            });
        }
    }

    /// Counts one comparison that came out equal.
    pub fn agree(&mut self) {
        self.compared += 1;
    }

    /// Notes a difference on an input of this size; what is said of it is kept if no smaller one is.
    #[cold]
    pub fn differ(&mut self, size: usize, said: impl FnOnce() -> String) {
        self.differed += 1;
        if self.smallest.as_ref().is_none_or(|(least, _)| size < *least) {
            self.smallest = Some((size, said()));
        }
    }

    /// Whether nothing has differed so far.
    pub fn clean(&self) -> bool {
        self.differed == 0
    }

    /// Something that must have happened in this class, and how often it did: never is a failure.
    pub fn seen(&mut self, what: &str, times: u64) {
        self.notes.push(format!("{times} {what}"));
        if times == 0 {
            self.differed += 1;
            self.smallest.get_or_insert((0, format!("no case of: {what}")));
        }
    }

    fn passed(&self) -> bool {
        self.differed == 0 && self.compared > 0
    }
}

/// Prints every class and the tally; true if all passed.
pub fn report(classes: &[Class]) -> bool {
    for class in classes {
        let notes = if class.notes.is_empty() { String::new() } else { format!(" ({})", class.notes.join(", ")) };
        let verdict = if class.passed() { "ok" } else { "FAILED" };
        println!("{verdict} {}: {} compared{notes}", class.name, class.compared);
        if let Some((_, smallest)) = &class.smallest {
            println!("    {} differ; smallest: {smallest}", class.differed);
        }
    }
    let failed = classes.iter().filter(|class| !class.passed()).count();
    if failed > 0 {
        println!("The --seed above repeats this run; the smallest input that differs is to be understood first.");
    }
    println!("{} passed, {failed} failed", classes.len() - failed);
    failed == 0
}
