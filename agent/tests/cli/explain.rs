//! Answers explained.

use crate::run::{accepted, bad_usage};
use pairing_agent::Refusal;

#[test]
fn explain() {
    let explained = |number: u32, word: &str| {
        let out = accepted(&["explain", &number.to_string()], b"");
        for written in [word, &word.to_lowercase(), &word.to_uppercase()] {
            let in_c = format!("PAIRING_{}", written.replace(' ', "_"));
            for name in [written, &in_c, &written.replace(' ', "-")] {
                assert_eq!(accepted(&["explain", name], b""), out, "{name}");
            }
        }
        let lines: Vec<_> = out.lines().collect();
        assert_eq!(lines.len(), 3, "{out}");
        assert_eq!(lines[0], format!("{number} {word}"));
        assert!(
            lines[1].starts_with("Given when: ") && lines[1].ends_with('.'),
            "{out}"
        );
        lines[2].strip_prefix("What to do: ").unwrap().to_string()
    };
    for (number, word) in [(0, "Accepted"), (100, "Match"), (101, "No match")] {
        assert!(!explained(number, word).is_empty());
    }
    for refusal in Refusal::ALL {
        let advice = explained(refusal.number(), &format!("{refusal:?}"));
        // What is wrong stands in the first line, so this begins with what to do.
        assert_eq!(advice, refusal.what_to_do());
        assert!(refusal.to_string().ends_with(&format!(": {advice}")));
    }
}

#[test]
fn no_other_number_is_an_answer() {
    let last = Refusal::ALL.map(Refusal::number).into_iter().max().unwrap();
    let why = format!("' is no answer of the library: those are 0 to {last}, 100 and 101");
    for number in [last + 1, 99, 102, 256, u32::MAX] {
        bad_usage(&why, &["explain", &number.to_string()], b"");
    }
    for word in ["Keys", "ke", "refused", "no", "", "x5", "pairing"] {
        bad_usage(&format!("'{word}{why}"), &["explain", "--", word], b"");
    }
}
