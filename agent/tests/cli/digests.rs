//! Digests of words and of bytes.

use crate::run::{accepted, refused, Scratch};
use pairing_agent::Refusal;

/// A worked digest: its letter, width, kept bits and digest words, then message, key and digest.
type Worked<'a> = (&'a str, [&'a str; 3], &'a str, &'a str, &'a str);

const WORKED: [Worked; 6] = [
    ("a", ["8", "8", "1"], "1", "5 200", "00000005"),
    ("b", ["8", "8", "1"], "255", "255 255", "000000ff"),
    (
        "c",
        ["8", "8", "2"],
        "3 7",
        "10 20 100 250",
        "000000ac 000000ff",
    ),
    (
        "d",
        ["8", "4", "2"],
        "3\n\t7\n",
        "0xa 0x14 0x64 0xFA",
        "0000000c 0000000f",
    ),
    (
        "e",
        ["32", "32", "1"],
        "0xffffffff",
        "4294967295 0xFFFFFFFF",
        "ffffffff",
    ),
    ("f", ["8", "8", "1"], "", "7", "00000000"),
];

#[test]
fn worked_digests() {
    for (letter, [w, b, n], message, key, digest) in WORKED {
        let key = Scratch::new(&format!("key-{letter}"), key);
        let due = format!("{digest}\n");
        let settings = ["--width", w, "--kept", b, "--words", n, "--key", key.path()];
        let args = [&["digest-words"], &settings[..], &["-"]].concat();
        assert_eq!(accepted(&args, message.as_bytes()), due, "case {letter}");
        // The message as a file; options last, and in the other form.
        let file = Scratch::new(&format!("message-{letter}"), message);
        let joined: Vec<String> = settings.chunks(2).map(|pair| pair.join("=")).collect();
        let mut args = vec!["digest-words", file.path()];
        args.extend(joined.iter().map(String::as_str));
        assert_eq!(accepted(&args, b""), due, "case {letter}");
        // The key from standard input.
        let mut args = [&["digest-words"], &settings[..6], &["--key", "-"]].concat();
        args.push(file.path());
        let key = std::fs::read(&key.0).unwrap();
        assert_eq!(accepted(&args, &key), due, "case {letter}");
    }
}

#[test]
fn defaults_are_32_bits_all_kept_and_one_word() {
    let key = Scratch::new("key-defaults", "0xffffffff 0xffffffff");
    assert_eq!(
        accepted(&["digest-words", "--key", key.path(), "-"], b"0xffffffff"),
        "ffffffff\n"
    );
    // The word 0x80ffffff. For any m but 0, m·(2^32 - 1) is (m - 1)·2^32 + (2^32 - m), and the
    // sum of these halves is 2^32 - 1.
    assert_eq!(
        accepted(&["digest", "--key", key.path(), "-"], &[0xff; 3]),
        "ffffffff\n"
    );
    // Kept follows the width.
    let key = Scratch::new("key-width", "255 255");
    let args = ["digest-words", "--width", "8", "--key", key.path(), "-"];
    assert_eq!(accepted(&args, b"255"), "000000ff\n");
}

#[test]
fn bytes_fill_words_from_the_lowest() {
    // The words 3 7 128 at 8 bits; the sums by hand, div rounding down:
    // 3*10 + 3*20 div 256 + 7*20 + 7*100 div 256 + 128*100 + 128*250 div 256 = 13097 = 0x3329,
    // 3*20 + 3*100 div 256 + 7*100 + 7*250 div 256 + 128*250 + 128*9 div 256 = 32771 = 0x8003.
    let key = Scratch::new("key-bytes", "10 20 100 250 9");
    let settings = ["--width", "8", "--words", "2", "--key", key.path(), "-"];
    let args = [&["digest"], &settings[..]].concat();
    assert_eq!(accepted(&args, &[3, 7]), "00000029 00000003\n");

    // Three bytes at 16 bits are the words 0x201 0x8003; the sum by hand:
    // 0x201*5 + 0x201*9 div 2^16 + 0x8003*9 + 0x8003*4 div 2^16 = 0xa05 + 0 + 0x4801b + 2.
    let due = "00008a22\n";
    let key = Scratch::new("key-16", "5 9 4");
    let settings = ["--width", "16", "--key", key.path(), "-"];
    let args = [&["digest"], &settings[..]].concat();
    assert_eq!(accepted(&args, &[1, 2, 3]), due);
    let args = [&["digest-words"], &settings[..]].concat();
    assert_eq!(accepted(&args, b"0x201 0x8003"), due);
}

/// Under a key of 1 and zeros the digest is the first word, under 0 1 0 the second.
#[test]
fn bytes_are_closed() {
    let digest = |key: &str, message: &[u8]| {
        let key = Scratch::new("key-closed", key);
        let file = Scratch::new("message-closed", message);
        accepted(&["digest", "--key", key.path(), file.path()], b"")
    };
    // An empty file is the one word 0x80.
    assert_eq!(digest("1 0", b""), "00000080\n");
    // A zero byte at the end is a part of the message.
    assert_eq!(digest("1 0", &[5]), "00008005\n");
    assert_eq!(digest("1 0", &[5, 0]), "00800005\n");
    // A file of exactly one word has two, and the key one more.
    assert_eq!(digest("1 0 0", b"abcd"), "64636261\n");
    assert_eq!(digest("0 1 0", b"abcd"), "00000080\n");
    let key = Scratch::new("key-closed-short", "1 0");
    let figures = "a key of 2 words; a message of 2 and a digest of 1 take 3";
    let args = ["digest", "--key", key.path(), "-"];
    refused(Refusal::Key, figures, &args, b"abcd");

    // Digests of no bytes: 0x80 times a key word, 0x80 times the next being below 2^32.
    let key = Scratch::new("key-closed-none", "1 2 3 4");
    let args = ["digest", "--words", "3", "--key", key.path(), "-"];
    assert_eq!(accepted(&args, b""), "00000080 00000100 00000180\n");
}

#[test]
fn bytes_are_taken_as_they_are() {
    // Line ends, zeros and bytes that are no text, from a file and from standard input.
    let message = b"\0\xff\r\n \xc3(\n";
    let file = Scratch::new("message-raw", message);
    let digest = |message| accepted(&["digest", "--seed", "1", "-"], message);
    let of_file = accepted(&["digest", "--seed", "1", file.path()], b"");
    assert_eq!(of_file, digest(message));
    assert_ne!(of_file, digest(&message[1..]));

    // Byte-order marks are bytes too: under a key of 1 and zeros the digest is the first word.
    for (message, key, digest) in [
        (&b"\xef\xbb\xbf"[..], "1 0", "80bfbbef\n"),
        (b"\xef\xbb\xbfabc", "1 0 0", "61bfbbef\n"),
        (b"\xff\xfe1\0", "1 0 0", "0031feff\n"),
        (b"\xfe\xff\x001", "1 0 0", "3100fffe\n"),
    ] {
        let key = Scratch::new("key-mark", key);
        let args = ["digest", "--key", key.path(), "-"];
        assert_eq!(accepted(&args, message), digest);
    }
}
