//! The message as sent, taken word by word; each word taken is spelled behind the last one.

use crate::alphabet::is_white;

/// A place in the message as sent, and the spelling of all that lies before it.
pub struct Words<'a> {
    sent: &'a [u8],
    place: usize,
    /// No word of this field was taken yet.
    fresh: bool,
    /// The next word spelled is joined to what stands before it.
    joined: bool,
    spelling: Vec<u8>,
}

impl<'a> Words<'a> {
    /// The words of a message, or of a field's content alone.
    pub fn of(sent: &'a [u8]) -> Self {
        let spelling = Vec::with_capacity(sent.len());
        Words { sent, place: 0, fresh: true, joined: true, spelling }
    }

    /// The message as sent.
    pub fn sent(&self) -> &'a [u8] {
        self.sent
    }

    /// The place in the message as sent.
    pub fn place(&self) -> usize {
        self.place
    }

    /// How much is spelled.
    pub fn spelled(&self) -> usize {
        self.spelling.len()
    }

    /// The spelling so far.
    pub fn into_spelling(self) -> Vec<u8> {
        self.spelling
    }

    /// Steps over one `(`, `-` or `)`.
    pub fn step_over(&mut self, bracket_or_hyphen: u8) {
        self.spelling.push(bracket_or_hyphen);
        self.place += 1;
        self.fresh = true;
        self.joined = true;
    }

    /// An entry's number: the one or two digits with an oblique directly behind them.
    pub fn entry_number(&mut self) -> Option<&'a [u8]> {
        let ahead = &self.sent[self.place..];
        let digits = ahead.iter().take_while(|b| b.is_ascii_digit()).count();
        let readable = matches!(digits, 1 | 2) && ahead.get(digits) == Some(&b'/');
        readable.then(|| self.entry_head(&ahead[..=digits]))
    }

    fn entry_head(&mut self, head: &'a [u8]) -> &'a [u8] {
        self.spelling.extend_from_slice(head);
        self.place += head.len();
        &head[..head.len() - 1]
    }

    /// Takes the next word of the field without spelling it; `None` at the field's end.
    ///
    /// White space that opens a field shows as an empty first word, which fits no form.
    pub fn take(&mut self) -> Option<&'a [u8]> {
        if !self.fresh {
            self.skip_white();
            if self.at_end() {
                return None;
            }
        }
        self.fresh = false;
        let ahead = &self.sent[self.place..];
        let length = ahead.iter().position(|&b| is_white(b) || closes(b)).unwrap_or(ahead.len());
        self.place += length;
        Some(&ahead[..length])
    }

    /// Takes the next word of the field and spells it as sent.
    pub fn word(&mut self) -> Option<&'a [u8]> {
        let word = self.take()?;
        self.spell(word);
        Some(word)
    }

    /// Takes the next word only if it holds no oblique.
    pub fn take_plain(&mut self) -> Option<&'a [u8]> {
        let here = self.place;
        let word = self.take()?;
        if word.contains(&b'/') {
            self.place = here;
            return None;
        }
        Some(word)
    }

    /// Spells a word, one space before it if it is not the first.
    pub fn spell(&mut self, word: &[u8]) {
        if !self.joined {
            self.spelling.push(b' ');
        }
        self.joined = false;
        self.spelling.extend_from_slice(word);
    }

    /// Spells a key with its oblique; the next word is joined to it.
    pub fn spell_key(&mut self, key: u8) {
        self.spell(&[key, b'/']);
        self.joined = true;
    }

    /// Whether nothing is left of the field; the place is then that of the `-` or `)` behind it.
    pub fn ended(&mut self) -> bool {
        self.skip_white();
        self.at_end()
    }

    fn skip_white(&mut self) {
        while self.sent.get(self.place).is_some_and(|&b| is_white(b)) {
            self.place += 1;
        }
    }

    fn at_end(&self) -> bool {
        self.sent.get(self.place).is_none_or(|&b| closes(b))
    }
}

fn closes(byte: u8) -> bool {
    matches!(byte, b'-' | b')')
}
