//! Cases of document 02 that an answer alone does not tell apart: ten thousand generated questions meet each of them.

use second::generate::questions::Questions;
use second::generate::Dice;
use second::vectors::Vectors;
use second::{read, update, State, LONGEST};

/// A question, the answer that it got, and the strip that was held.
struct Asked {
    question: String,
    answer: String,
    held: String,
}

impl Asked {
    /// Whether it asks so and is answered so.
    fn is(&self, question: &str, answer: &str) -> bool {
        self.question.starts_with(question) && self.answer.starts_with(answer)
    }

    /// What stands behind the last word before the message.
    fn message(&self) -> &str {
        self.question.split_once('(').map_or("", |(before, _)| &self.question[before.len()..])
    }

    /// The strip that is held from now on.
    fn now_held(&self) -> String {
        match self.answer.split_once('(') {
            _ if self.answer == "HELD" => self.message().to_string(),
            Some((before, _)) if self.is("U ", "OK") || self.is("u ", "OK") => self.answer[before.len()..].to_string(),
            _ => self.held.clone(),
        }
    }

    /// Whether the message is its own spelling.
    fn is_canonical(&self) -> bool {
        read(self.message().as_bytes(), LONGEST).is_ok_and(|read| read.spelling == self.message().as_bytes())
    }

    /// The room that the question lends.
    fn room(&self) -> Option<usize> {
        self.question.split(' ').nth(1)?.parse().ok()
    }

    /// Whether a reading or an update with as much room as is promised is answered so.
    fn in_promised_room(&self, question: &str, answer: &str) -> bool {
        let held = if question == "u " { length(&self.held) } else { 0 };
        let promised = (held + length(self.message())).min(LONGEST);
        self.is(question, answer) && self.room() == Some(promised)
    }

    /// Whether an entry of 16 has four letters and so many digits, and then ends.
    fn has_entry_16(&self, digits: usize) -> bool {
        self.message().split("-16/").skip(1).any(|behind| {
            let end = behind.find(['-', ')', ' ', '\\']).unwrap_or(0);
            let content = &behind.as_bytes()[..end];
            end == 4 + digits
                && content[..4].iter().all(u8::is_ascii_uppercase)
                && content[4..].iter().all(u8::is_ascii_digit)
        })
    }

    fn has_bare_entry(&self) -> bool {
        self.has_entry_16(0)
    }

    /// The date of the message's own field 18.
    fn date(&self) -> Option<&str> {
        date_of(self.message().split('-').nth(4)?)
    }

    /// Whether it is 12 for the date alone: with the strip's it is another answer.
    fn is_on_another_day(&self) -> bool {
        let (Some(date), Some(planned)) = (self.date(), date_of(&self.held)) else { return false };
        let same_day = self.message().replacen(date, planned, 1);
        let answer = update(self.held.as_bytes(), State::Filed, same_day.as_bytes(), LONGEST);
        self.answer == "NO 12 0 0" && answer.map_or_else(|refusal| refusal.number, |_| 0) != 12
    }

    /// Whether it is updated, and both have the same date.
    fn is_on_the_day(&self, question: &str) -> bool {
        self.is(question, "OK") && self.date().is_some() && self.date() == date_of(&self.held)
    }

    /// Whether a DLA puts its date into a strip that has none, where items stand before it and behind it or not.
    fn puts_date(&self, before: bool, behind: bool) -> bool {
        let eighteen = self.answer.rsplit('-').next().unwrap_or_default();
        let is_put = self.date().is_some() && date_of(&self.held).is_none();
        let stands = |text: &str, some: bool| text.is_empty() != some;
        let placed = |(first, last): (&str, &str)| stands(first, before) && stands(&last[7..], behind);
        self.is("U (DLA", "OK FILED") && is_put && eighteen.split_once("DOF/").is_some_and(placed)
    }
}

/// The bytes that a text stands for; an escape stands for one.
fn length(text: &str) -> usize {
    text.len() - 2 * text.matches('\\').count()
}

/// The date in a text that has one.
fn date_of(text: &str) -> Option<&str> {
    text.split_once("DOF/").and_then(|(_, behind)| behind.get(..6))
}

type Case = (&'static str, fn(&Asked) -> bool);

/// Request 2: a bare new destination.
const BARE: [Case; 10] = [
    ("read", |asked| asked.is("R ", "OK CHG") && asked.has_bare_entry()),
    ("stops too soon", |asked| asked.is("", "NO 7 22") && (1..4).any(|digits| asked.has_entry_16(digits))),
    ("named twice", |asked| asked.is("", "NO 9 22") && asked.has_bare_entry()),
    ("filed", |asked| asked.is("U ", "OK FILED") && asked.has_bare_entry()),
    ("departed", |asked| asked.is("U ", "OK DEPARTED") && asked.has_bare_entry()),
    ("unexplained", |asked| asked.is("U ", "NO 10 16") && asked.has_bare_entry()),
    ("for another flight", |asked| asked.is("U ", "NO 12") && asked.has_bare_entry()),
    ("in neither", |asked| asked.is("F 16", "NO 17") && asked.has_bare_entry() && asked.is_canonical()),
    ("another field in the strip", |asked| asked.is("F ", "IN STRIP") && asked.has_bare_entry()),
    ("another field in the CHG", |asked| asked.is("F ", "IN CHG") && asked.has_bare_entry()),
];

/// Request 5: which day.
const DATES: [Case; 15] = [
    ("CHG on the day", |asked| asked.is_on_the_day("U (CHG")),
    ("CNL on the day", |asked| asked.is_on_the_day("U (CNL")),
    ("DEP on the day", |asked| asked.is_on_the_day("U (DEP")),
    ("CHG on another", |asked| asked.is("U (CHG", "NO 12") && asked.is_on_another_day()),
    ("CNL on another", |asked| asked.is("U (CNL", "NO 12") && asked.is_on_another_day()),
    ("DEP on another", |asked| asked.is("U (DEP", "NO 12") && asked.is_on_another_day()),
    ("only the strip has one", |asked| {
        asked.is("U (CHG", "OK") && asked.date().is_none() && date_of(&asked.held).is_some()
    }),
    ("only the CHG has one", |asked| {
        asked.is("U (CHG", "OK") && asked.date().is_some() && date_of(&asked.held).is_none()
    }),
    ("replaced", |asked| {
        asked.is("U (DLA", "OK")
            && asked.date().is_some()
            && date_of(&asked.held).is_some_and(|day| asked.date() != Some(day))
    }),
    ("0 gives way", |asked| asked.puts_date(false, false) && asked.held.ends_with("-0)")),
    ("put last", |asked| asked.puts_date(true, false)),
    ("put first", |asked| asked.puts_date(false, true)),
    ("put between", |asked| asked.puts_date(true, true)),
    ("too long by it", |asked| asked.is("U (DLA", "NO 16")),
    ("another in force", |asked| asked.is("F ", "NO 12") && asked.is_on_another_day()),
];

/// Request 11: the room that is promised to be enough, and one byte less than is needed.
const ROOMS: [Case; 6] = [
    ("read in its length", |asked| asked.in_promised_room("r ", "OK")),
    ("refused in its length", |asked| asked.in_promised_room("r ", "NO 7")),
    ("read in too little", |asked| asked.is("r ", "NO 11")),
    ("updated in both lengths", |asked| asked.in_promised_room("u ", "OK")),
    ("refused in both lengths", |asked| asked.in_promised_room("u ", "NO")),
    ("updated in too little", |asked| asked.is("u ", "NO 11")),
];

/// How often each case was met in ten thousand questions.
fn met(seed: u64, cases: &[Case]) -> Vec<(&'static str, usize)> {
    let mut dice = Dice::new(seed);
    let (mut questions, mut vectors) = (Questions::default(), Vectors::default());
    let mut met: Vec<_> = cases.iter().map(|(name, _)| (*name, 0)).collect();
    let mut held = String::new();
    for _ in 0..10_000 {
        let line = questions.next(&mut dice);
        let text = |bytes| String::from_utf8(bytes).expect("questions and answers are text");
        let asked = Asked { answer: text(vectors.answer(&line)), question: text(line), held };
        held = asked.now_held();
        for ((_, times), (_, is_case)) in met.iter_mut().zip(cases) {
            *times += usize::from(is_case(&asked));
        }
    }
    met
}

fn all_met(cases: &[Case]) {
    for seed in [1, 2, 3] {
        let met = met(seed, cases);
        println!("seed {seed}: {met:?}");
        assert!(met.iter().all(|(_, times)| *times > 0), "seed {seed}: {met:?}");
    }
}

#[test]
fn a_bare_new_destination() {
    all_met(&BARE);
}

#[test]
fn which_day() {
    all_met(&DATES);
}

#[test]
fn rooms() {
    all_met(&ROOMS);
    let never: [Case; 2] = [
        ("read in its length", |asked| asked.in_promised_room("r ", "NO 11")),
        ("updated in both lengths", |asked| asked.in_promised_room("u ", "NO 11")),
    ];
    for seed in [1, 2, 3] {
        let met = met(seed, &never);
        assert!(met.iter().all(|(_, times)| *times == 0), "seed {seed}: {met:?}");
    }
}
