//! Whether an earlier pattern matches every name that a later one matches (request C-20), decided a second time: by going
//! through the levels of both at once, and without trying any name. Both are patterns that `add_rule` takes. What each
//! matcher does with a name is said in its own words:
//! - a plain level takes an equal one, `+` takes any one, `#` takes all that is left, also nothing;
//! - under the port `+` takes no empty level at a name's end, and a dollar sign is a letter;
//! - under MQTT 3.1.1 a pattern that begins with a wildcard takes no name that begins with a dollar sign (4.7.2).
//!
//! The empty string is no name, so none ends before its first level, nor behind it where that is empty.

/// Whether the earlier pattern matches every name that the later one matches.
pub fn covers(earlier: &[u8], later: &[u8], standard: bool) -> bool {
    let apart = later[0] == b'$' && matches!(earlier[0], b'+' | b'#');
    !(standard && apart) && covers_but_for_dollar(earlier, later, standard)
}

/// The same if a dollar sign were a letter under MQTT 3.1.1 too.
pub fn covers_but_for_dollar(earlier: &[u8], later: &[u8], standard: bool) -> bool {
    let [earlier, later] = [earlier, later].map(|pattern| pattern.split(|&byte| byte == b'/').collect::<Vec<_>>());
    takes(&earlier, &later, 0, standard)
}

/// Whether the earlier levels take all that the later ones do, from a place on; those before it do.
fn takes(earlier: &[&[u8]], later: &[&[u8]], at: usize, standard: bool) -> bool {
    // Whether a name may end before this level.
    let ends = |at: usize| at > 1 || at == 1 && !later[0].is_empty();
    match (&earlier[at..], &later[at..]) {
        ([b"#"], _) | ([], []) => true,
        // `#` takes nothing too, which `+` does not; but where no name ends here it is one level or more. Under the port `+`
        // does not take an empty one at the end, and as a name's first level that would be the empty string.
        ([b"+", b"#"], [b"#"]) => !ends(at) && (standard || at == 0),
        (_, [b"#"]) | ([], _) | (_, []) => false,
        ([b"+", ..], [level, behind @ ..]) => {
            let may_end = matches!(behind, [] | [b"#"]) && ends(at + 1);
            (standard || !level.is_empty() || !may_end) && takes(earlier, later, at + 1, standard)
        }
        // `+` takes two levels that differ, and no plain level is both.
        ([plain, ..], [level, ..]) => plain == level && takes(earlier, later, at + 1, standard),
    }
}
