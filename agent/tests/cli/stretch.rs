//! Stretched seeds.

use crate::run::accepted;

#[test]
fn stretch_prints_the_published_outputs() {
    assert_eq!(
        accepted(&["stretch", "--seed", "5489", "3"], b""),
        "0xd091bb5c\n0x22ae9ef6\n0xe7e1faee\n"
    );
    // Narrower words are the first bits of the same outputs: of the first, the hexadecimal digits
    // d0, d, and the binary digit 1.
    for (w, due) in [
        ("16", ["d091", "22ae", "e7e1"]),
        ("8", ["00d0", "0022", "00e7"]),
        ("4", ["000d", "0002", "000e"]),
        ("1", ["0001", "0000", "0001"]),
    ] {
        assert_eq!(
            accepted(&["stretch", "--width", w, "--seed", "5489", "3"], b""),
            due.map(|word| format!("0x0000{word}\n")).concat(),
            "w {w}"
        );
    }
    assert_eq!(accepted(&["stretch", "--seed", "5489", "0"], b""), "");
    let words = accepted(&["stretch", "--seed", "5489", "10000"], b"");
    assert_eq!(words.lines().count(), 10_000);
    assert_eq!(
        words.lines().last(),
        Some(format!("{:#010x}", 4_123_659_995u32).as_str())
    );
}

/// The array and its first outputs are published.
#[test]
fn stretch_takes_an_array() {
    let due = [1_067_595_299u32, 955_945_823, 477_289_528];
    for (w, unused) in [("32", 0), ("24", 8), ("1", 31)] {
        let args = [
            "stretch",
            "--width",
            w,
            "--seed",
            "0x123,0x234,0x345,0x456",
            "3",
        ];
        let due = due.map(|output| format!("{:#010x}\n", output >> unused));
        assert_eq!(accepted(&args, b""), due.concat(), "w {w}");
    }
}

#[test]
fn the_longest_stretch() {
    let most = pairing_agent::MOST_KEY_WORDS;
    let words = accepted(&["stretch", "--seed", "1", &most.to_string()], b"");
    assert_eq!((words.lines().count(), most), (65_544, 65_544));
}
