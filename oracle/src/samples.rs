//! The names that request C-20 is decided by, as crates/topics/specs/Covering.antt lists them: of the later pattern, with
//! a letter for each `+` and two levels of it for `#`, without the last four bytes, three, two, one, and whole; first
//! with `a`, then with `b`. The name that is handed back is the first that only the later pattern matches.

/// A name to try, its letter, and how many bytes of the longest were left out.
pub struct Try {
    pub name: Vec<u8>,
    pub letter: u8,
    pub cut: usize,
}

/// All that are tried of a later pattern, in their order; the empty string is no name.
pub fn tries(later: &[u8]) -> Vec<Try> {
    let mut all = Vec::new();
    for letter in *b"ab" {
        let longest: Vec<u8> = later.iter().flat_map(|&byte| sample(byte, letter)).collect();
        for cut in (0..5).rev().filter(|&cut| cut < longest.len()) {
            all.push(Try { name: longest[..longest.len() - cut].to_vec(), letter, cut });
        }
    }
    all
}

/// What stands for a byte of the pattern.
fn sample(byte: u8, letter: u8) -> Vec<u8> {
    match byte {
        b'+' => vec![letter],
        b'#' => vec![letter, b'/', letter],
        _ => vec![byte],
    }
}

/// The first try that only the later pattern matches, if there is one.
pub fn only_later(earlier: &[u8], later: &[u8], matches: impl Fn(&[u8], &[u8]) -> bool) -> Option<Try> {
    let only = |name: &[u8]| matches(name, later) && !matches(name, earlier);
    tries(later).into_iter().find(|tried| only(&tried.name))
}
