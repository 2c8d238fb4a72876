//! What is measured: messages of the second reader's generator, messages of a given length, and offers to a strip.

use second::generate::{form_and_content, piece, valid, DeskRun, Dice};
use second::programs::offer;
use second::{Kind, Updated};

use crate::beechdoublet::MOST;
use crate::input::Input;

const SEED: u64 = 1;

/// Inputs that are measured together.
pub struct Set {
    pub name: String,
    pub inputs: Vec<Input>,
}

impl Set {
    /// Those whose instructions are counted: a hundred at most, from all over the set, and none twice running.
    pub fn counted(&self) -> Vec<Input> {
        let mut some: Vec<Input> = self.inputs.iter().copied().step_by((self.inputs.len() / 100).max(1)).collect();
        some.dedup();
        some
    }
}

/// Sets that are shown together.
pub struct Table {
    pub name: &'static str,
    pub sets: Vec<Set>,
}

pub fn tables() -> Vec<Table> {
    vec![
        Table { name: "accepted, by type", sets: by_type() },
        Table { name: "accepted and refused", sets: vec![mixed()] },
        Table { name: "FPL, a longer route", sets: by_length(plan_with_route) },
        Table { name: "FPL, a longer remark", sets: by_length(plan_with_remark) },
        Table { name: "offers to a strip", sets: vec![offers()] },
    ]
}

/// A hundred accepted messages of each type.
fn by_type() -> Vec<Set> {
    let mut dice = Dice::new(SEED);
    let mut set = |kind: Kind| {
        let made = std::iter::repeat_with(|| valid(&mut dice, kind));
        let accepted = made.filter(|message| second::read(message, MOST).is_ok());
        Set { name: kind.name().to_string(), inputs: accepted.take(100).map(Input::message).collect() }
    };
    Kind::ALL.iter().map(|&kind| set(kind)).collect()
}

/// A thousand messages, accepted one time in two at least.
fn mixed() -> Set {
    let mut dice = Dice::new(SEED);
    let made = std::iter::repeat_with(|| piece(&mut dice));
    Set { name: "mixed".to_string(), inputs: made.take(1000).map(Input::message).collect() }
}

/// A plan of so many bytes at most, and nearly as many, whose route is long.
fn plan_with_route(bytes: usize) -> Vec<u8> {
    let words: [&[u8]; 6] = [b" DCT", b" UL607", b" PAM", b" 46N078W", b" FOJ180040", b" ARTIP/N0450F330"];
    grown(b"(FPL-AB-I-B7/M-N/N-EHAM0930-N0440F310 T1", &words, b"-EDDF0100-0)", bytes)
}

/// The same with a long remark.
fn plan_with_remark(bytes: usize) -> Vec<u8> {
    let words: [&[u8]; 4] = [b" CREW", b" 2+4", b" ROUTE", b" AS,FILED"];
    grown(b"(FPL-AB-I-B7/M-N/N-EHAM0930-N0440F310 T1-EDDF0100-RMK/X", &words, b")", bytes)
}

/// As many words, in turn, as there is room for between a beginning and an end.
fn grown(beginning: &[u8], words: &[&[u8]], end: &[u8], bytes: usize) -> Vec<u8> {
    let mut message = beginning.to_vec();
    for word in words.iter().cycle() {
        if message.len() + word.len() + end.len() > bytes {
            break;
        }
        message.extend_from_slice(word);
    }
    message.extend_from_slice(end);
    message
}

/// Fifty times the same message, at each of a row of lengths.
fn by_length(plan: fn(usize) -> Vec<u8>) -> Vec<Set> {
    let lengths = [50, 100, 200, 400, 800, 1200, 1600, 1800];
    let set = |bytes| Set { name: format!("up to {bytes}"), inputs: vec![Input::message(plan(bytes)); 50] };
    lengths.into_iter().map(set).collect()
}

/// Offers to a strip, from runs of the second reader's generator.
fn offers() -> Set {
    let mut inputs = Vec::new();
    for seed in 0..20 {
        let (mut dice, mut run, mut held) = (Dice::new(SEED + seed), DeskRun::new(), None);
        for _ in 0..30 {
            let message = run.next(&mut dice);
            let answer = offer(&held, &message);
            if let Some(Updated { strip, state }) = held.clone() {
                inputs.push(Input::offer(strip, state, message));
            }
            held = answer.ok().or(held);
        }
    }
    Set { name: "strip and message".to_string(), inputs }
}

/// Plans of all sorts, to which the yardstick is held: messages of the generator, plans with one field that may not fit, and the fronts of these.
pub fn plans() -> Vec<Input> {
    let mut dice = Dice::new(SEED);
    let mut plans: Vec<Vec<u8>> = std::iter::repeat_with(|| piece(&mut dice)).take(10_000).collect();
    for turn in 0..10_000 {
        let plan = with_another_field(&mut dice);
        let mut front = plan[..turn * 7919 % plan.len()].to_vec();
        front.push(b')');
        plans.extend([plan, front]);
    }
    plans.into_iter().map(Input::message).filter(Input::is_plan).collect()
}

/// An accepted plan with another content, which may be of another field's form, for one field.
fn with_another_field(dice: &mut Dice) -> Vec<u8> {
    let plan = valid(dice, Kind::Fpl);
    let mut fields: Vec<&[u8]> = plan[1..plan.len() - 1].split(|&b| b == b'-').collect();
    let (form, content) = form_and_content(dice);
    let forms = ["3", "7", "8", "9", "10", "13", "15", "16plan", "18"];
    let place = forms.iter().position(|own| *own == form).unwrap_or_else(|| dice.below(forms.len()));
    fields[place] = &content;
    [b"(", &fields.join(&b'-')[..], b")"].concat()
}
