//! A reload of the original (requests C-13 and C-18): its settings as text in a form, by the second writer, and the
//! monitor that the second reader makes of them by the original's own calls (reader.rs).

use crate::answers::{Answer, Original, action_word, hex, policy_words};
use crate::reader::{self, POLICIES, Refused, Rule, Settings};
use vs_mqtt_monitor::state;

/// The monitor is then the one that its text loads to; one that has no text in this form, or whose text is refused,
/// stays.
pub fn reload(original: &mut Original, form: u32) -> Answer {
    let text = match reader::in_form(&settings(original), form) {
        Ok(settings) => reader::text(&settings),
        Err(number) => return Answer::Refused(number),
    };
    let (number, line) = match reader::read(&text) {
        Ok((settings, lines)) => {
            *original = Original { stale: original.stale, ..made(&settings) };
            (0, lines)
        }
        Err(Refused { number, line, .. }) => (number, line),
    };
    Answer::Reloaded { text, number, line }
}

/// What a text says of a monitor that number 10 lets pass, in the form that can say all of it.
fn settings(original: &Original) -> Settings {
    let Original { monitor, matching, .. } = original;
    let (default, threshold, window, _) = state::settings(monitor);
    let rule = |rule: state::Rule| {
        let word = policy_words(rule.policy).replace('=', "");
        Rule {
            pattern: rule.pattern[..rule.pattern_len as usize].to_vec(),
            action: action_word(rule.action),
            qos: POLICIES.into_iter().find(|known| *known == word).expect("a policy"),
            rate: rule.rate.into(),
        }
    };
    let rules = (0..monitor.rule_count()).filter_map(|place| state::rule(monitor, place)).map(rule).collect();
    Settings { form: 2, default: action_word(default), matching, threshold: threshold.into(), window, rules }
}

/// A fresh monitor that calls gave these settings.
fn made(settings: &Settings) -> Original {
    let Settings { default, matching, threshold, window, rules, .. } = settings;
    let mut fresh = Original::new();
    let standard = if *matching == "standard" { "_standard" } else { "" };
    let denies = if *default == "block" { "_deny_default" } else { "" };
    fresh.answer(&format!("new{standard}{denies}"));
    fresh.answer(&format!("set_connect_storm_params {threshold} {window}"));
    for Rule { pattern, action, qos, rate } in rules {
        fresh.answer(&format!("add_rule {} {action} {qos} {rate}", hex(pattern)));
    }
    fresh
}
