//! A field as sent, gone over from left to right along every way in which it may still go on to a fitting one.

use crate::alphabet::is_white;

/// Where a way stands in the field, and the farthest place that any way came to.
///
/// A byte is stepped over only if a fitting field can go on behind it: so no fitting field goes on with the byte at the
/// farthest place.
pub struct Trail<'a> {
    sent: &'a [u8],
    at: usize,
    farthest: usize,
}

impl<'a> Trail<'a> {
    /// The field that begins at this place of the message as sent.
    pub fn of(sent: &'a [u8], start: usize) -> Self {
        Trail { sent, at: start, farthest: start }
    }

    /// The farthest place that any way came to.
    pub fn farthest(&self) -> usize {
        self.farthest
    }

    /// The next byte, where a run of white space is one space; `None` at the field's end.
    ///
    /// A run before the closing `-` or `)` is none of the field. One that the field begins with is, but since no field begins with a space
    /// and none is empty, nothing goes on there either way.
    fn next(&self) -> Option<u8> {
        let run = self.run();
        match self.sent.get(self.at + run) {
            None | Some(b'-' | b')') => None,
            Some(byte) if run == 0 => Some(*byte),
            Some(_) => Some(b' '),
        }
    }

    /// The length of the white space that is next.
    fn run(&self) -> usize {
        self.sent[self.at..].iter().take_while(|&&b| is_white(b)).count()
    }

    /// Steps over the next byte if it is of this sort.
    pub fn step(&mut self, sort: impl Fn(u8) -> bool) -> bool {
        let steps = self.next().is_some_and(sort);
        if steps {
            self.at += self.run().max(1);
            self.farthest = self.farthest.max(self.at);
        }
        steps
    }

    /// Steps over this byte.
    pub fn byte(&mut self, due: u8) -> bool {
        self.step(|byte| byte == due)
    }

    /// Steps over these bytes.
    pub fn word(&mut self, due: &[u8]) -> bool {
        due.iter().all(|&byte| self.byte(byte))
    }

    /// Steps over as many bytes of a sort as there are, from `least` to `most`.
    pub fn some(&mut self, least: usize, most: usize, sort: fn(u8) -> bool) -> bool {
        let mut count = 0;
        while count < most && self.step(sort) {
            count += 1;
        }
        count >= least
    }

    /// A number of so many digits from `least` to `most`: a digit is stepped over only if such a number begins so.
    pub fn number(&mut self, width: u32, least: u32, most: u32) -> Option<u32> {
        let mut value = 0;
        for behind in (0..width).rev() {
            let unit = 10u32.pow(behind);
            let reaches = |digit: u8| {
                let lowest = value + u32::from(digit.wrapping_sub(b'0')) * unit;
                digit.is_ascii_digit() && lowest <= most && lowest + unit > least
            };
            let digit = self.next()?;
            if !self.step(reaches) {
                return None;
            }
            value += u32::from(digit - b'0') * unit;
        }
        Some(value)
    }

    /// Whether the field ends here.
    pub fn ended(&self) -> bool {
        self.next().is_none()
    }

    /// Whether a word ends here.
    pub fn word_ended(&self) -> bool {
        self.next().is_none_or(|byte| byte == b' ')
    }

    /// Goes one way; back again if it leads nowhere.
    pub fn way(&mut self, way: impl FnOnce(&mut Self) -> bool) -> bool {
        let here = self.at;
        let leads = way(self);
        if !leads {
            self.at = here;
        }
        leads
    }

    /// Where this way stands.
    pub fn at(&self) -> usize {
        self.at
    }

    /// What was stepped over since a place.
    pub fn since(&self, place: usize) -> &'a [u8] {
        &self.sent[place..self.at]
    }
}
