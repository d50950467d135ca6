//! Help, and the version.

use crate::run::accepted;
use pairing_agent::{MOST_CODE_DIGITS, MOST_DIGEST_WORDS, MOST_KEY_WORDS};
use pairing_agent::{MOST_MESSAGE_WORDS, MOST_PEERS, MOST_SEED_WORDS};

const COMMANDS: [(&str, &[&str]); 10] = [
    (
        "digest",
        &["--width", "--kept", "--words", "--seed", "--key"],
    ),
    (
        "digest-words",
        &["--width", "--kept", "--words", "--seed", "--key"],
    ),
    (
        "code",
        &["--width", "--digits", "--seed", "--key", "--label"],
    ),
    (
        "peers",
        &["--width", "--kept", "--words", "--seeds", "--label"],
    ),
    ("words", &["--width"]),
    ("stretch", &["--width", "--seed"]),
    ("load", &["--width", "--seed", "--key-to", "--message-to"]),
    ("match", &["--words"]),
    ("count", &["--width", "--svg"]),
    ("explain", &[]),
];

fn check_lines(text: &str) {
    for line in text.lines() {
        assert!(line.chars().count() <= 90, "{line}");
    }
}

#[test]
fn help() {
    let top = accepted(&["--help"], b"");
    assert_eq!(top, accepted(&["-h"], b""));
    assert_eq!(top, accepted(&["help"], b""));
    check_lines(&top);
    for (command, options) in COMMANDS {
        assert!(top.contains(&format!("\n  {command} ")), "{top}");
        let text = accepted(&[command, "--help"], b"");
        assert!(
            text.contains(&format!("\nUsage: pairing {command} ")),
            "{text}"
        );
        for option in options {
            assert!(text.contains(&format!("\n  {option} ")), "{text}");
        }
        for asked in [
            &[command, "-h"][..],
            &[command, "extra", "--help", "--bits"],
            &["help", command],
            &["--help", command],
        ] {
            assert_eq!(text, accepted(asked, b""), "{asked:?}");
        }
        check_lines(&text);
    }
}

#[test]
fn help_tells_the_statuses_apart() {
    let top = accepted(&["--help"], b"");
    let (_, statuses) = top.split_once("\nExit status:\n").expect("a table");
    let given: Vec<_> = statuses
        .lines()
        .map(|line| line.split_whitespace().next().unwrap())
        .collect();
    assert_eq!(given, ["0", "1", "2", "64", "65", "74", "141"]);
}

#[test]
fn help_has_the_limits_and_what_is_proved() {
    let digest = accepted(&["digest", "--help"], b"");
    let words = format!("digest words, 1 to {MOST_DIGEST_WORDS};");
    assert!(digest.contains(&words), "{digest}");

    let code = accepted(&["code", "--help"], b"");
    let digits = format!("digits of the code, 1 to {MOST_CODE_DIGITS},");
    assert!(code.contains(&digits), "{code}");
    let proved = "This is proved for keys drawn uniformly, and not for stretched ones.";
    assert!(code.contains(&format!("\ndown. {proved}")), "{code}");

    let text = accepted(&["peers", "--help"], b"");
    let peers = format!("message; 1 to {MOST_PEERS} of them\n");
    assert!(text.contains(&peers), "{text}");

    let stretch = accepted(&["stretch", "--help"], b"");
    let count = format!("how many words, up to {MOST_KEY_WORDS}\n");
    assert!(stretch.contains(&count), "{stretch}");
    let rule = "Key words from a seed: of each output of MT19937 the upper W bits.\n";
    assert!(stretch.starts_with(rule), "{stretch}");
    let plain = stretch.split_whitespace().collect::<Vec<_>>().join(" ");
    for part in [
        "proved for keys of t + n words drawn uniformly",
        "a stretched key is one of at most 2^32, from arrays of k words one of at most 2^(32*k), \
         and no count is proved for those.",
    ] {
        assert!(plain.contains(part), "{stretch}");
    }

    let load = accepted(&["load", "--help"], b"");
    for limit in [
        format!("how many key words, up to {MOST_KEY_WORDS}\n"),
        format!("how many message words, up to {MOST_MESSAGE_WORDS}\n"),
    ] {
        assert!(load.contains(&limit), "{load}");
    }
}

#[test]
fn help_has_both_kinds_of_seeds() {
    let array = format!("a number, or an array of 1 to {MOST_SEED_WORDS} numbers with commas");
    for (command, options) in COMMANDS {
        let text = accepted(&[command, "--help"], b"");
        let takes_a_seed = options.contains(&"--seed");
        assert_eq!(text.contains(&array), takes_a_seed, "{text}");
    }
}

/// One text, wherever a key for a pairing is taken or made.
#[test]
fn help_has_the_rule_that_makes_a_pairing_safe() {
    for (command, _) in COMMANDS {
        let text = accepted(&[command, "--help"], b"");
        let rule = text.split_once("\nThe rule that makes a pairing safe:\n");
        let takes_a_key = ["digest", "digest-words", "code", "peers", "stretch"];
        assert_eq!(rule.is_some(), takes_a_key.contains(&command), "{text}");
        let Some((_, rule)) = rule else {
            continue;
        };
        let parts: Vec<_> = rule.lines().take(4).map(str::trim).collect();
        let due = [
            "Draw the key after both labels are fixed.",
            "Keep it secret until then.",
            "Use it once.",
            "Every retry is another chance for a wrong label.",
        ];
        assert_eq!(parts, due, "{command}");
        let generator = "MT19937 is no cryptographic generator, and need not be one: the key is \
                         public once\nthe digest is made";
        assert_eq!(rule.contains(generator), command == "stretch", "{rule}");
    }
}

#[test]
fn version() {
    let due = format!("pairing {}\n", env!("CARGO_PKG_VERSION"));
    for option in ["--version", "-V"] {
        assert_eq!(accepted(&[option], b""), due);
    }
}
