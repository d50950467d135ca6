//! What both ends agree on before they digest.

/// What both ends agree on before they digest: one set of numbers for a message, its key and its
/// digest.
///
/// Any numbers can be set. The library tests them in every call, and refuses those out of range
/// with [`Refusal::Width`](crate::Refusal::Width), [`Kept`](crate::Refusal::Kept) or
/// [`Count`](crate::Refusal::Count).
#[derive(Clone, Copy, Debug, PartialEq, Eq, Hash)]
pub struct Settings {
    /// Bits of a word, w in the papers: 1 to 32; 8, 16 or 32 to digest bytes.
    pub width: u32,
    /// Low bits kept of each digest word, b in the papers: 1 to `width`.
    pub kept: u32,
    /// Words of the digest, n in the papers: 1 to 8.
    pub words: u32,
}

impl Settings {
    /// How many words the key has for a message of `message_words` words.
    ///
    /// ```
    /// let settings = pairing_agent::Settings { width: 32, kept: 32, words: 2 };
    /// assert_eq!(settings.key_words(3), 5);
    /// ```
    #[must_use]
    pub fn key_words(&self, message_words: usize) -> usize {
        message_words.saturating_add(self.words as usize)
    }

    /// How many words `bytes` bytes make with the byte that closes them: one at least, but 0 at a
    /// width other than 8, 16 and 32, which no bytes fill.
    ///
    /// ```
    /// let settings = pairing_agent::Settings { width: 32, kept: 32, words: 2 };
    /// assert_eq!(settings.words_of_bytes(9), 3);
    /// // Eight bytes fill two words, so the closing byte has one of its own.
    /// assert_eq!(settings.words_of_bytes(8), 3);
    /// ```
    #[must_use]
    pub fn words_of_bytes(&self, bytes: usize) -> usize {
        match self.width {
            8 => bytes.saturating_add(1),
            16 => bytes / 2 + 1,
            32 => bytes / 4 + 1,
            _ => 0,
        }
    }

    /// The words that `bytes` make with the byte 0x80 that closes them: [`Settings::words_of_bytes`]
    /// of them, with the first byte lowest, and zero bytes fill up the last. None at a width other
    /// than 8, 16 and 32, which no bytes fill.
    ///
    /// So calls that take words, as [`digest_code`](crate::digest_code) and
    /// [`digest_peers`](crate::digest_peers) do, can take a label: the digest of these words is the
    /// one that [`digest_bytes`](crate::digest_bytes) gives of the bytes. That is tested, and not
    /// proved: the library closes bytes itself.
    ///
    /// ```
    /// let settings = pairing_agent::Settings { width: 32, kept: 32, words: 1 };
    /// assert_eq!(settings.closed_words(b"depot"), [0x6f70_6564, 0x0000_8074]);
    /// assert_eq!(settings.closed_words(b""), [0x80]);
    /// ```
    #[must_use]
    pub fn closed_words(&self, bytes: &[u8]) -> Vec<u32> {
        let mut words = vec![0; self.words_of_bytes(bytes.len())];
        if words.is_empty() {
            return words;
        }
        let in_a_word = self.width as usize / 8;
        for (place, byte) in bytes.iter().chain(&[0x80]).enumerate() {
            words[place / in_a_word] |= u32::from(*byte) << (8 * (place % in_a_word));
        }
        words
    }
}
