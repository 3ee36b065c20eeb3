//! The supply of random words (section 2).

/// Section 2: "the lent word slice together with the place of the next unused word".
pub(crate) struct Supply<'a> {
    words: &'a [u32],
    place: usize,
}

impl<'a> Supply<'a> {
    /// Section 2: "A public call starts at place 0".
    pub(crate) fn new(words: &'a [u32]) -> Supply<'a> {
        Supply { words, place: 0 }
    }

    /// Section 2: "Drawing takes that word and moves one on." Nothing when no word is left.
    pub(crate) fn draw(&mut self) -> Option<u32> {
        let word = *self.words.get(self.place)?;
        self.place += 1;
        Some(word)
    }

    /// How many words have been drawn: the place reached.
    pub(crate) fn drawn(&self) -> u64 {
        self.place as u64
    }
}
