//! Field contents and drafts of messages; wrong here and there if the dice are wild.

use super::dice::Dice;
use super::drafts::Draft;
use crate::forms::Form::{self, *};
use crate::kind::Kind;
use crate::other::{date_of, KEYS, STATUSES};

const LETTERS: &[u8] = b"ABCDEFGHIJKLMNOPQRSTUVWXYZ";
const DIGITS: &[u8] = b"0123456789";
const SIGNS: &[u8] = b"ABCDEFGHIJKLMNOPQRSTUVWXYZ0123456789";
const TEXT: &[u8] = b"ABCDEFGHIJKLMNOPQRSTUVWXYZ0123456789?:.,'=+";
/// Bytes that spoil a word: some in the alphabet, some not.
const FOREIGN: &[u8] = b"-/()az_\t*;\x80\xff\0!\"#%&<>@[]^|~ ";

/// What the messages of one flight have in common.
pub struct Flight {
    identification: Vec<u8>,
    departure: Vec<u8>,
    off_block: Vec<u8>,
    destination: Vec<u8>,
    day: Option<Vec<u8>>,
}

impl Flight {
    /// Any flight; now and then from or to an aerodrome without a name of its own.
    pub fn any(dice: &mut Dice) -> Self {
        let departure = departure(dice);
        Flight {
            identification: bytes(dice, SIGNS, 2, 7),
            departure,
            off_block: time(dice),
            destination: aerodrome_or_zzzz(dice),
            day: some_day(dice, 40),
        }
    }

    /// The flight of a canonical strip; one time in eight something of it differs, or several things.
    pub fn of_strip(dice: &mut Dice, strip: &[u8]) -> Self {
        let mut flight = Flight::any(dice);
        let mut fields = strip.split(|&b| b == b'-');
        let seven = fields.nth(1).unwrap_or_default();
        let thirteen = fields.nth(3).unwrap_or_default();
        let sixteen = fields.nth(1).unwrap_or_default();
        let eighteen = fields.next().unwrap_or_default();
        let one_or_more = if dice.chance(60) { 1 << dice.below(5) } else { dice.from_to(1, 31) };
        let differing = if dice.chance(12) { one_or_more } else { 0 };
        let same = |value: usize| differing & 1 << value == 0;
        if same(0) {
            flight.identification = seven.split(|&b| b == b'/').next().unwrap_or_default().to_vec();
        }
        if same(1) {
            flight.departure = thirteen.iter().take(4).copied().collect();
        }
        if same(2) {
            flight.off_block = thirteen.iter().skip(4).copied().collect();
        }
        if same(3) {
            flight.destination = sixteen.iter().take(4).copied().collect();
        }
        if same(4) {
            flight.day = date_of(eighteen.strip_suffix(b")").unwrap_or(eighteen)).map(<[u8]>::to_vec);
        }
        flight
    }
}

/// A message of this type for this flight.
pub fn draft(dice: &mut Dice, kind: Kind, flight: &Flight) -> Draft {
    match kind {
        Kind::Fpl => plan(dice, flight),
        Kind::Chg => {
            let mut draft = with_head(dice, kind, flight, &[F7, F13, F16, F18]);
            let count = if dice.chance(60) { dice.from_to(1, 3) } else { dice.from_to(1, 8) };
            draft.extend(entries(dice, flight, count));
            draft
        }
        Kind::Arr if dice.chance(50) => with_head(dice, kind, flight, &[F7, F13, F17]),
        Kind::Arr => with_head(dice, kind, flight, &[F7, F13, F16, F17]),
        Kind::Rqp => with_head(dice, kind, flight, &[F7, F13Open, F16, F18]),
        Kind::Spl => with_head(dice, kind, flight, &[F7, F13, F16Plan, F18, F19]),
        _ => with_head(dice, kind, flight, &[F7, F13, F16, F18]),
    }
}

fn with_head(dice: &mut Dice, kind: Kind, flight: &Flight, forms: &[Form]) -> Draft {
    let mut draft = vec![message_type(dice, kind)];
    let arrives_at_17 = kind == Kind::Arr && !forms.contains(&F16);
    for &form in forms {
        let content = match form {
            F7 => with_code(dice, &flight.identification),
            F13Open if dice.chance(50) => flight.departure.clone(),
            F13 | F13Open if matches!(kind, Kind::Dla | Kind::Dep) => [&flight.departure[..], &time(dice)].concat(),
            F13 | F13Open => [&flight.departure[..], &flight.off_block].concat(),
            F16 => flight.destination.clone(),
            F16Plan => with_alternates(dice, &flight.destination).0,
            F17 if arrives_at_17 => arrival(dice, &flight.destination),
            F18 => {
                let day = day_of(dice, kind, flight);
                other_information(dice, &[], day)
            }
            _ => content(dice, form),
        };
        draft.push(content);
    }
    draft
}

/// The day that a message says: mostly the flight's or none; a DLA's is another.
fn day_of(dice: &mut Dice, kind: Kind, flight: &Flight) -> Option<Vec<u8>> {
    match &flight.day {
        _ if kind == Kind::Dla => some_day(dice, 60),
        Some(day) if dice.chance(60) => Some(day.clone()),
        Some(_) => some_day(dice, 40),
        None => some_day(dice, 20),
    }
}

/// Any day, so many times in a hundred.
fn some_day(dice: &mut Dice, percent: usize) -> Option<Vec<u8>> {
    dice.chance(percent).then(|| date(dice))
}

/// An FPL; every ZZZZ and AFIL in it is explained in its field 18.
fn plan(dice: &mut Dice, flight: &Flight) -> Draft {
    let nine = aircraft(dice);
    let (sixteen, unnamed_alternate) = with_alternates(dice, &flight.destination);
    let mut due = due_items(&nine, flight, unnamed_alternate);
    if dice.wild() {
        due.pop();
    }
    vec![
        message_type(dice, Kind::Fpl),
        with_code(dice, &flight.identification),
        content(dice, F8),
        nine,
        content(dice, F10),
        [&flight.departure[..], &flight.off_block].concat(),
        content(dice, F15),
        sixteen,
        other_information(dice, &due, flight.day.clone()),
    ]
}

/// The items of field 18 that a plan must have.
fn due_items(nine: &[u8], flight: &Flight, unnamed_alternate: bool) -> Vec<&'static [u8]> {
    let unnamed_type = nine.windows(5).any(|part| part == b"ZZZZ/");
    let unnamed_departure = matches!(&flight.departure[..], b"ZZZZ" | b"AFIL");
    let items: [(bool, &[u8]); 4] = [
        (unnamed_type, b"TYP"),
        (unnamed_departure, b"DEP"),
        (flight.destination == b"ZZZZ", b"DEST"),
        (unnamed_alternate, b"ALTN"),
    ];
    items.into_iter().filter(|(due, _)| *due).map(|(_, key)| key).collect()
}

/// So many entries of field 22, eight at most.
pub fn entries(dice: &mut Dice, flight: &Flight, count: usize) -> Vec<Vec<u8>> {
    let mut numbers: [&[u8]; 8] = [b"7", b"8", b"9", b"10", b"13", b"15", b"16", b"18"];
    dice.shuffle(&mut numbers);
    if dice.chance(15) {
        numbers.sort_by_key(|number| *number != b"16");
    }
    let mut entries = Vec::new();
    for number in &numbers[..count] {
        let content = match Form::of_entry(number) {
            Some(F7) if dice.chance(50) => with_code(dice, &flight.identification),
            Some(F18) if dice.chance(50) => {
                let day = some_day(dice, 40);
                other_information(dice, &[b"DEP", b"DEST", b"TYP", b"ALTN"], day)
            }
            Some(form) => content(dice, form),
            None => Vec::new(),
        };
        entries.push([number, &b"/"[..], &content].concat());
    }
    if dice.wild() {
        let twice = dice.pick(&entries).clone();
        entries.push(twice);
    }
    entries
}

/// A content of this form.
pub fn content(dice: &mut Dice, form: Form) -> Vec<u8> {
    match form {
        F3 => {
            let kind = *dice.pick(&Kind::ALL);
            message_type(dice, kind)
        }
        F7 => {
            let name = bytes(dice, SIGNS, 2, 7);
            with_code(dice, &name)
        }
        F8 => rules_and_type(dice),
        F9 => aircraft(dice),
        F10 => equipment(dice),
        F13Open if dice.chance(50) => aerodrome(dice),
        F13 | F13Open => [departure(dice), time(dice)].concat(),
        F15 => route(dice),
        F16 => aerodrome_or_zzzz(dice),
        F16Entry if dice.chance(40) => aerodrome_or_zzzz(dice),
        F16Plan | F16Entry => {
            let destination = aerodrome_or_zzzz(dice);
            with_alternates(dice, &destination).0
        }
        F17 => {
            let aerodrome = aerodrome_or_zzzz(dice);
            arrival(dice, &aerodrome)
        }
        F18 => {
            let day = some_day(dice, 25);
            other_information(dice, &[], day)
        }
        F19 => supplement(dice),
        F22 => Vec::new(),
    }
}

/// From `least` to `most` bytes of a set; wild: one too many, one too few or a foreign byte.
fn bytes(dice: &mut Dice, set: &[u8], least: usize, most: usize) -> Vec<u8> {
    let mut made = exact(dice, set, least, most);
    if dice.wild() {
        match dice.below(3) {
            0 => made = exact(dice, set, most + 1, most + 1),
            1 => made = exact(dice, set, least.saturating_sub(1), least.saturating_sub(1)),
            _ => {
                let place = dice.below(made.len());
                made[place..].iter_mut().take(1).for_each(|byte| *byte = *dice.pick(FOREIGN));
            }
        }
    }
    made
}

fn exact(dice: &mut Dice, set: &[u8], least: usize, most: usize) -> Vec<u8> {
    let length = if dice.chance(25) { *dice.pick(&[least, most]) } else { dice.from_to(least, most) };
    (0..length).map(|_| *dice.pick(set)).collect()
}

/// One of a list; wild: something else.
fn one_of(dice: &mut Dice, list: &[&[u8]]) -> Vec<u8> {
    if dice.wild() {
        return bytes(dice, SIGNS, 0, 4);
    }
    dice.pick(list).to_vec()
}

fn digits(dice: &mut Dice, count: usize) -> Vec<u8> {
    bytes(dice, DIGITS, count, count)
}

/// A number from 0 to `most` in so many digits, often at an edge; wild: just beyond.
fn number_to(dice: &mut Dice, most: usize, width: usize) -> Vec<u8> {
    let value = match dice.below(8) {
        _ if dice.wild() => most + dice.from_to(1, 2),
        0 => most,
        1 => 0,
        _ => dice.from_to(0, most),
    };
    format!("{value:0width$}").into_bytes()
}

fn time(dice: &mut Dice) -> Vec<u8> {
    if dice.wild() {
        return one_of(dice, &[b"2400", b"2460", b"0060", b"2360", b"9959", b"093", b"09300", b"0A30", b"24:0", b""]);
    }
    [number_to(dice, 23, 2), number_to(dice, 59, 2)].concat()
}

/// An elapsed time: every second one could be a time of day.
fn elapsed(dice: &mut Dice) -> Vec<u8> {
    if dice.wild() {
        return one_of(dice, &[b"2460", b"9960", b"0060", b"2360", b"9999", b"093", b"09300", b"0A30", b"24:0", b""]);
    }
    let most_hours = if dice.chance(50) { 23 } else { 99 };
    [number_to(dice, most_hours, 2), number_to(dice, 59, 2)].concat()
}

fn aerodrome(dice: &mut Dice) -> Vec<u8> {
    bytes(dice, LETTERS, 4, 4)
}

fn departure(dice: &mut Dice) -> Vec<u8> {
    if dice.chance(12) {
        dice.pick(&[b"ZZZZ", b"AFIL"]).to_vec()
    } else {
        aerodrome(dice)
    }
}

fn aerodrome_or_zzzz(dice: &mut Dice) -> Vec<u8> {
    if dice.chance(15) {
        b"ZZZZ".to_vec()
    } else {
        aerodrome(dice)
    }
}

fn message_type(dice: &mut Dice, kind: Kind) -> Vec<u8> {
    let mut made = kind.name().as_bytes().to_vec();
    let numbers = match dice.below(10) {
        _ if dice.wild() => 3,
        0..=5 => 0,
        _ => dice.from_to(1, 2),
    };
    for _ in 0..numbers {
        made.extend(bytes(dice, LETTERS, 1, 4));
        made.push(b'/');
        made.extend(bytes(dice, LETTERS, 1, 4));
        made.extend(digits(dice, 3));
    }
    made
}

fn with_code(dice: &mut Dice, name: &[u8]) -> Vec<u8> {
    let mut made = name.to_vec();
    if dice.chance(40) {
        made.extend(b"/A");
        let set: &[u8] = if dice.wild() { DIGITS } else { b"01234567" };
        made.extend(bytes(dice, set, 4, 4));
    }
    made
}

fn rules_and_type(dice: &mut Dice) -> Vec<u8> {
    let mut made = one_of(dice, &[b"I", b"V", b"Y", b"Z"]);
    if dice.chance(70) {
        made.extend(one_of(dice, &[b"S", b"N", b"G", b"M", b"X"]));
    }
    made
}

fn aircraft(dice: &mut Dice) -> Vec<u8> {
    let mut made = Vec::new();
    if dice.wild() {
        made.extend(one_of(dice, &[b"0", b"1", b"02", b"00", b"100", b"09"]));
    } else if dice.chance(40) {
        made.extend(dice.from_to(2, 99).to_string().bytes());
    }
    if dice.chance(15) {
        made.extend(b"ZZZZ");
    } else {
        made.extend(exact(dice, LETTERS, 1, 1));
        made.extend(bytes(dice, SIGNS, 1, 3));
    }
    made.push(b'/');
    made.extend(one_of(dice, &[b"H", b"M", b"L"]));
    made
}

/// All codes that stand behind `letters`, as `E123` stands for E1 E2 E3 and `A` for A.
fn code_list(groups: &[&str]) -> Vec<Vec<u8>> {
    let mut list = Vec::new();
    for group in groups {
        let (letter, digits) = group.split_at(1);
        if digits.is_empty() {
            list.push(letter.as_bytes().to_vec());
        }
        list.extend(digits.bytes().map(|digit| [letter.as_bytes(), &[digit]].concat()));
    }
    list
}

/// Some of a list of codes, none twice; wild: one too many, one twice, or one that there is not.
fn some_codes(dice: &mut Dice, groups: &[&str], most_codes: usize, most_bytes: usize) -> Vec<u8> {
    let mut list = code_list(groups);
    dice.shuffle(&mut list);
    let most = if dice.chance(60) { 5 } else { most_codes.min(list.len()) };
    let count = if dice.wild() { most_codes.saturating_add(1) } else { dice.from_to(1, most) };
    list.truncate(count);
    if dice.wild() {
        let twice = dice.pick(&list).clone();
        list.push(twice);
    }
    let mut made = Vec::new();
    for code in list {
        if made.len() + code.len() <= most_bytes || dice.wild() {
            made.extend(code);
        }
    }
    if dice.wild() {
        made.extend(one_of(dice, &NO_CODES));
    }
    made
}

const NO_CODES: [&[u8]; 20] = [
    b"E", b"E4", b"J", b"J8", b"J0", b"M", b"M4", b"P", b"P0", b"N", b"Q", b"B3", b"U3", b"V", b"D2", b"G2", b"A2",
    b"C5", b"S3", b"L0",
];

fn equipment(dice: &mut Dice) -> Vec<u8> {
    let left = [
        "A",
        "B",
        "C",
        "D",
        "E123",
        "F",
        "G",
        "H",
        "I",
        "J1234567",
        "K",
        "L",
        "M123",
        "O",
        "P123456789",
        "R",
        "S",
        "T",
        "U",
        "V",
        "W",
        "X",
        "Y",
        "Z",
    ];
    let right = ["A", "C", "E", "H", "I", "L", "P", "S", "X", "B12", "U12", "V12", "D1", "G1"];
    let side = |dice: &mut Dice, groups: &[&str], most_bytes| {
        if dice.chance(10) {
            b"N".to_vec()
        } else {
            some_codes(dice, groups, usize::MAX, most_bytes)
        }
    };
    [side(dice, &left, 64), b"/".to_vec(), side(dice, &right, 20)].concat()
}

fn route(dice: &mut Dice) -> Vec<u8> {
    let mut made = speed(dice);
    if dice.chance(10) {
        made.extend(b"VFR");
    } else {
        made.extend(level(dice));
    }
    let least = usize::from(!dice.wild());
    for _ in 0..dice.from_to(least, least * 9) {
        made.push(b' ');
        made.extend(route_word(dice));
    }
    if dice.wild() {
        made.extend(b" T DCT");
    } else if dice.chance(10) {
        made.extend(b" T");
    }
    made
}

fn route_word(dice: &mut Dice) -> Vec<u8> {
    match dice.below(12) {
        0..=2 => point(dice),
        3 | 4 => [point(dice), b"/".to_vec(), speed(dice), level(dice)].concat(),
        5 => climb(dice),
        6 | 7 => one_of(dice, &[b"DCT", b"VFR", b"IFR"]),
        _ => bytes(dice, SIGNS, 2, 7),
    }
}

fn climb(dice: &mut Dice) -> Vec<u8> {
    let upper = match dice.below(10) {
        _ if dice.wild() => Vec::new(),
        0..=3 => b"PLUS".to_vec(),
        _ => level(dice),
    };
    [b"C/".to_vec(), point(dice), b"/".to_vec(), speed(dice), level(dice), upper].concat()
}

fn point(dice: &mut Dice) -> Vec<u8> {
    match dice.below(4) {
        _ if dice.wild() => {
            one_of(dice, &[b"DCT", b"VFR", b"T", b"KODAP2A", b"46N078X", b"FOJ361040", b"A180040", b"91N078W"])
        }
        0 => [coordinate_part(dice, 90, 2, b"NS"), coordinate_part(dice, 180, 3, b"EW")].concat(),
        1 => [full_coordinate_part(dice, 90, 2, b"NS"), full_coordinate_part(dice, 180, 3, b"EW")].concat(),
        2 => [bytes(dice, SIGNS, 2, 5), number_to(dice, 360, 3), digits(dice, 3)].concat(),
        _ => bytes(dice, SIGNS, 2, 5),
    }
}

fn coordinate_part(dice: &mut Dice, most: usize, width: usize, hemispheres: &[u8]) -> Vec<u8> {
    let mut made = number_to(dice, most, width);
    made.push(*dice.pick(hemispheres));
    made
}

fn full_coordinate_part(dice: &mut Dice, most: usize, width: usize, hemispheres: &[u8]) -> Vec<u8> {
    let mut made = number_to(dice, most, width);
    let at_most = made == most.to_string().into_bytes();
    let minutes = if at_most && !dice.wild() { b"00".to_vec() } else { number_to(dice, 59, 2) };
    made.extend(minutes);
    made.push(*dice.pick(hemispheres));
    made
}

fn speed(dice: &mut Dice) -> Vec<u8> {
    let letter = *dice.pick(b"KNM");
    [vec![letter], digits(dice, if letter == b'M' { 3 } else { 4 })].concat()
}

fn level(dice: &mut Dice) -> Vec<u8> {
    if dice.wild() {
        return b"VFR".to_vec();
    }
    let letter = *dice.pick(b"FFASM");
    [vec![letter], digits(dice, if matches!(letter, b'S' | b'M') { 4 } else { 3 })].concat()
}

/// Field 16's FPL form, and whether an alternate in it is ZZZZ.
fn with_alternates(dice: &mut Dice, destination: &[u8]) -> (Vec<u8>, bool) {
    let mut made = [destination, &elapsed(dice)].concat();
    let mut unnamed = false;
    let most = if dice.wild() { 3 } else { 2 };
    for _ in 0..dice.from_to(0, most) {
        let alternate = aerodrome_or_zzzz(dice);
        unnamed |= alternate == b"ZZZZ";
        made.push(b' ');
        made.extend(alternate);
    }
    (made, unnamed)
}

fn arrival(dice: &mut Dice, aerodrome: &[u8]) -> Vec<u8> {
    let mut made = [aerodrome, &time(dice)].concat();
    if (aerodrome == b"ZZZZ") != dice.wild() {
        made.push(b' ');
        made.extend(text(dice));
    }
    made
}

/// One or more text words.
fn text(dice: &mut Dice) -> Vec<u8> {
    words(dice, 1, 4, |dice| bytes(dice, TEXT, 1, 9))
}

fn words(dice: &mut Dice, least: usize, most: usize, word: impl Fn(&mut Dice) -> Vec<u8>) -> Vec<u8> {
    let count = dice.from_to(least, most);
    (0..count).map(|_| word(dice)).collect::<Vec<_>>().join(&b' ')
}

/// Field 18 with the items due, the day if there is one, and some other items.
fn other_information(dice: &mut Dice, due: &[&[u8]], day: Option<Vec<u8>>) -> Vec<u8> {
    if due.is_empty() && day.is_none() && dice.chance(40) {
        return b"0".to_vec();
    }
    let rate = *dice.pick(&[2, 5, 12, 35]);
    let mut keys: Vec<&[u8]> = Vec::new();
    for key in KEYS {
        let chosen = if key == b"DOF" { day.is_some() } else { due.contains(&key) || dice.chance(rate) };
        keys.extend(chosen.then_some(key));
    }
    if keys.is_empty() {
        keys.push(*dice.pick(&[b"STS", b"PBN", b"DEP", b"REG", b"EET", b"PER", b"RMK"]));
    }
    let mut items: Vec<Vec<u8>> = keys.iter().map(|key| item(dice, key, &day)).collect();
    if dice.wild() {
        items.push(b"RMK/A/C".to_vec());
    }
    if dice.wild() {
        dice.shuffle(&mut items);
    }
    items.join(&b' ')
}

fn item(dice: &mut Dice, key: &[u8], day: &Option<Vec<u8>>) -> Vec<u8> {
    let one_more = dice.wild();
    let words = match (key, day) {
        (b"DOF", Some(day)) => day.clone(),
        _ => item_words(dice, key),
    };
    [key, b"/", &words, if one_more { b" MORE" } else { b"" }].concat()
}

fn item_words(dice: &mut Dice, key: &[u8]) -> Vec<u8> {
    match key {
        b"STS" if dice.wild() => one_of(dice, &[b"HOS", b"SAR.", b"NONRVS", b"ATFMEX", b"STATEX", b"HUM HEA", b"SA"]),
        b"STS" => words(dice, 1, 3, |dice| one_of(dice, &STATUSES)),
        b"PBN" => some_codes(dice, &["A1", "B123456", "C1234", "D1234", "L1", "O1234", "S12", "T12"], 8, 18),
        b"SEL" => bytes(dice, LETTERS, 4, 4),
        b"CODE" if dice.wild() => exact(dice, SIGNS, 6, 6),
        b"CODE" => bytes(dice, b"0123456789ABCDEF", 6, 6),
        b"EET" | b"DLE" => words(dice, 1, 4, |dice| [bytes(dice, SIGNS, 2, 11), elapsed(dice)].concat()),
        _ => text(dice),
    }
}

fn date(dice: &mut Dice) -> Vec<u8> {
    if dice.wild() {
        return one_of(dice, &[b"230229", b"240230", b"241301", b"240001", b"240400", b"240431", b"24022", b"2402290"]);
    }
    if dice.chance(30) {
        return dice.pick(&[b"240229", b"000229", b"991231", b"230228", b"240430", b"000101"]).to_vec();
    }
    [number_to_99(dice), two_digits(dice.from_to(1, 12)), two_digits(dice.from_to(1, 28))].concat()
}

fn number_to_99(dice: &mut Dice) -> Vec<u8> {
    two_digits(dice.below(100))
}

fn two_digits(value: usize) -> Vec<u8> {
    format!("{value:02}").into_bytes()
}

/// Field 19 as sent: letters in any order, counts with or without leading zeros.
fn supplement(dice: &mut Dice) -> Vec<u8> {
    let rate = *dice.pick(&[5, 20, 60, 90]);
    let mut items: Vec<Vec<u8>> = Vec::new();
    for &item in b"EPRSJDANC" {
        if dice.chance(rate) {
            items.push([vec![item, b'/'], supplement_words(dice, item)].concat());
        }
    }
    if items.is_empty() {
        let item = *dice.pick(b"EPRSJDANC");
        items.push([vec![item, b'/'], supplement_words(dice, item)].concat());
    }
    if dice.wild() {
        dice.shuffle(&mut items);
    }
    if dice.wild() {
        let twice = dice.pick(&items).clone();
        items.push(twice);
    }
    items.join(&b' ')
}

fn supplement_words(dice: &mut Dice, item: u8) -> Vec<u8> {
    match item {
        b'E' => elapsed(dice),
        b'P' => count(dice, 3),
        b'R' => letters_of(dice, b"UVE"),
        b'S' => letters_of(dice, b"PDMJ"),
        b'J' if dice.wild() => one_of(dice, &[b"U", b"VU", b"L U V", b"LF UV U", b"LU", b"F F", b"FL "]),
        b'J' if dice.chance(50) => letters_of(dice, b"LF"),
        b'J' => [letters_of(dice, b"LF"), letters_of(dice, b"UV")].join(&b' '),
        b'D' => dinghies(dice),
        _ => text(dice),
    }
}

fn count(dice: &mut Dice, most_digits: usize) -> Vec<u8> {
    let set: &[u8] = if dice.chance(50) { DIGITS } else { b"001" };
    bytes(dice, set, 1, most_digits)
}

fn letters_of(dice: &mut Dice, set: &[u8]) -> Vec<u8> {
    let mut letters = set.to_vec();
    dice.shuffle(&mut letters);
    letters.truncate(dice.from_to(1, set.len()));
    if dice.wild() {
        letters.push(*dice.pick(b"UVEPDMJLFX0"));
    }
    letters
}

fn dinghies(dice: &mut Dice) -> Vec<u8> {
    let mut parts = Vec::new();
    if dice.wild() {
        return one_of(
            dice,
            &[b"222 8", b"2 C", b"2", b"2 8 8", b"2 8 C C", b"C 2 8", b"RED C", b"R", b"02 0014", b"2 R8"],
        );
    }
    let which = dice.from_to(1, 7);
    if which & 1 != 0 {
        parts.push(count(dice, 2));
        parts.push(count(dice, 3));
    }
    if which & 2 != 0 {
        parts.push(b"C".to_vec());
    }
    if which & 4 != 0 {
        parts.push(words(dice, 1, 3, |dice| bytes(dice, LETTERS, 2, 7)));
    }
    if dice.wild() {
        dice.shuffle(&mut parts);
    }
    if dice.wild() {
        parts.pop();
    }
    parts.join(&b' ')
}
