//! The place of 7 as it is read, against its definition: the content before it can be completed to a fitting one, the content up to and including
//! it cannot. Completions are looked for among many endings, by whether a content fits and by nothing else.

use std::collections::BTreeSet;

use second::generate::{form_and_content, piece, Dice};
use second::{field_fits, field_misfit, read, Refusal, LONGEST};

type Bytes = Vec<u8>;

/// For each form, contents whose tails complete a content that was cut anywhere.
const FORMS: [(&str, &[&str]); 13] = [
    (
        "3",
        &[
            "CNLA/A123",
            "ALR",
            "ARR",
            "ACP",
            "CDN",
            "CHG",
            "LAM",
            "FPL",
            "CPLA/A123A/A123",
            "SPL",
            "RQP",
            "RQS",
            "DEP",
            "DLA",
            "EST",
            "RCF",
        ],
    ),
    ("7", &["AA/A0000", "AAAAAAA"]),
    ("8", &["IS"]),
    ("9", &["2AAA/H", "AA/H", "10AA/M"]),
    ("10", &["N/N", "A/N", "1/N", "2/N", "3/N", "4/N", "5/N", "6/N", "7/N", "8/N", "9/N", "A/A", "A/B1"]),
    ("13", &["AAAA0000"]),
    ("13open", &["AAAA0000"]),
    (
        "15",
        &["N0000F000 AA", "M000S0000 T", "K0000VFR DCT", "C/AA/N0000F000F000", "C/AA/M000S0000PLUS", "AA/K0000M0000"],
    ),
    ("16", &["AAAA"]),
    ("16plan", &["AAAA0000 AAAA AAAA"]),
    ("17", &["AAAA0000", "ZZZZ0000 A", "ZZZZ2359 A"]),
    (
        "18",
        &[
            "0",
            "STS/SAR",
            "CODE/000000",
            "SEL/AAAA",
            "DOF/000101",
            "PBN/A1",
            "EET/AAAAAAAAAAA0000",
            "DLE/AA0000",
            "REG/A RMK/A",
        ],
    ),
    ("19", &["E/0000 P/0 R/U S/P J/L U D/0 0 C AA A/A N/A C/A", "S/D", "S/M", "S/J", "R/V", "R/E", "J/F V"]),
];

/// What stands in field 18 before an oblique, and the words of STS.
const WORDS_OF_18: &str =
    "STS PBN NAV COM DAT SUR DEP DEST DOF REG EET SEL TYP CODE DLE OPR ORGN PER ALTN RALT TALT RIF RMK \
    ALTRV ATFMX FFR FLTCK HAZMAT HEAD HOSP HUM MARSA MEDEVAC NONRVSM SAR STATE";

/// Whether a content could stand between two hyphens with its white space reduced.
fn is_reduced(content: &[u8]) -> bool {
    let closed = content.iter().any(|b| b"()-\r\n".contains(b));
    !closed && !content.windows(2).any(|pair| pair == b"  ") && content.last() != Some(&b' ')
}

/// Contents of a form as they are generated: some fit, most do not.
fn generated(form: &str, count: usize, dice: &mut Dice) -> Vec<Bytes> {
    let pairs = std::iter::repeat_with(|| form_and_content(dice));
    let contents = pairs.filter_map(|(name, content)| (name == form).then_some(content));
    contents.filter(|content| content.len() < 80 && is_reduced(content)).take(count).collect()
}

/// Contents with one byte changed, dropped, doubled or put in, or cut off.
fn damaged(content: &[u8], dice: &mut Dice) -> Vec<Bytes> {
    let mut all = Vec::new();
    for place in 0..content.len() {
        let (before, behind) = content.split_at(place);
        let put_in = *dice.pick(b"0123456789ACDEFJMNPSTUVWXZ./ ");
        all.push(before.to_vec());
        all.push([before, &behind[1..]].concat());
        all.push([before, &behind[..1], behind].concat());
        all.push([before, &[put_in], behind].concat());
        all.push([before, &[put_in], &behind[1..]].concat());
    }
    all.retain(|content| is_reduced(content));
    all
}

/// All strings of at most so many bytes of a set.
fn strings(set: &[u8], most: usize) -> Vec<Bytes> {
    let mut all = vec![Vec::new()];
    let mut longest = all.clone();
    for _ in 0..most {
        longest = longest.iter().flat_map(|string| set.iter().map(|&byte| [&string[..], &[byte]].concat())).collect();
        all.extend(longest.iter().cloned());
    }
    all
}

/// The endings that are tried for a form.
fn endings(form: &str, contents: &[&str]) -> Vec<Bytes> {
    let mut all: BTreeSet<Bytes> = strings(b"0123456789ABCDEFGHIJKLMNOPQRSTUVWXYZ. /", 1).into_iter().collect();
    all.extend(strings(b"019AENW", 3));
    let mut whole: Vec<Bytes> = contents.iter().map(|content| content.as_bytes().to_vec()).collect();
    if form == "15" {
        let points = strings(b"0NE", 5).into_iter().chain(strings(b"0E", 8)).chain(strings(b"0", 11));
        let points: Vec<Bytes> = points.collect();
        all.extend(points.iter().map(|point| [&point[..], b"/N0000F000PLUS"].concat()));
        all.extend(points);
    }
    if form == "18" {
        for word in WORDS_OF_18.split(' ').map(str::as_bytes) {
            whole.push(word.to_vec());
            let values: [&[u8]; 5] = [b"/A", b"/A1", b"/000101", b"/AA0000", b"/AAAA"];
            whole.extend(values.map(|value| [word, value].concat()));
        }
        all.extend(strings(b"0", 6));
    }
    all.extend(whole.iter().flat_map(|content| (0..content.len()).map(|from| content[from..].to_vec())));
    all.into_iter().collect()
}

fn text(bytes: &[u8]) -> String {
    String::from_utf8_lossy(bytes).into_owned()
}

/// A form as it is asked: whether a content fits, and the place of one that does not.
struct Asked<'a> {
    fits: &'a dyn Fn(&[u8]) -> bool,
    misfit: &'a dyn Fn(&[u8]) -> Option<usize>,
}

impl Asked<'_> {
    /// Compares the place that is read with the definition; the number of contents that have one.
    fn check(&self, contents: &[Bytes], endings: &[Bytes]) -> usize {
        let completion = |begun: &[u8]| endings.iter().map(|e| [begun, e].concat()).find(|c| (self.fits)(c));
        let mut misfits = 0;
        for content in contents {
            let Some(place) = (self.misfit)(content) else { continue };
            misfits += 1;
            assert!(!(self.fits)(content), "{}", text(content));
            assert!(completion(&content[..place]).is_some(), "{}: {place} is too far", text(content));
            if let Some(found) = content.get(..=place).and_then(completion) {
                panic!("{}: {place} is too near, as {} fits", text(content), text(&found));
            }
        }
        misfits
    }
}

/// How many contents of each form are damaged at every byte, and how many are taken as generated.
const DAMAGED: usize = 12;
const GENERATED: usize = 150;

#[test]
fn the_definition() {
    let mut dice = Dice::new(7);
    let mut total = 0;
    for (form, contents) in FORMS {
        let asked =
            Asked { fits: &|content| field_fits(form, content), misfit: &|content| field_misfit(form, content) };
        let endings = endings(form, contents);
        let mut all = generated(form, GENERATED, &mut dice);
        let short = generated(form, 40 * DAMAGED, &mut dice).into_iter();
        let fitting = short.filter(|content| field_fits(form, content) && content.len() < 60).take(DAMAGED);
        all.extend(fitting.collect::<Vec<_>>().iter().flat_map(|content| damaged(content, &mut dice)));
        all.extend((0..3).flat_map(|_| contents).flat_map(|content| damaged(content.as_bytes(), &mut dice)));
        let misfits = asked.check(&all, &endings);
        println!("{form}: {misfits} of {} contents do not fit, {} endings", all.len(), endings.len());
        total += misfits;
    }
    assert!(total > 8000, "{total}");
}

const BEFORE_ENTRY: &[u8] = b"(CHG-AB-EHAM0930-EDDF-0-";

fn read_entry(entry: &[u8]) -> Result<(), Refusal> {
    read(&[BEFORE_ENTRY, entry, b")"].concat(), LONGEST).map(|_| ())
}

/// An entry's place is in its number, its oblique or the field that it names.
#[test]
fn entries() {
    let place_of_7 = |refusal: Refusal| (refusal.number == 7).then(|| refusal.place - BEFORE_ENTRY.len());
    let asked = Asked {
        fits: &|entry| is_reduced(entry) && read_entry(entry).is_ok(),
        misfit: &|entry| read_entry(entry).err().and_then(place_of_7),
    };
    let whole: [&str; 13] = [
        "7/AA/A0000",
        "8/IS",
        "9/2AA/H",
        "10/N/N",
        "13/AAAA0000",
        "15/M000VFR AA",
        "16/AAAA0000 AAAA",
        "16/AAAA",
        "18/0",
        "18/RMK/A",
        "10/M1/N",
        "15/K0000S0000 AA/N0000F000",
        "18/REG/A",
    ];
    let whole = whole.map(str::as_bytes);
    let mut endings = endings("18", &["M1/N", "M000F000 AA"]);
    endings.extend(whole.iter().flat_map(|entry| (0..entry.len()).map(|from| entry[from..].to_vec())));
    let mut dice = Dice::new(10);
    let all: Vec<Bytes> =
        whole.iter().flat_map(|entry| (0..4).flat_map(|_| damaged(entry, &mut dice)).collect::<Vec<_>>()).collect();
    let misfits = asked.check(&all, &endings);
    println!("22: {misfits} of {} entries do not fit, {} endings", all.len(), endings.len());
}

#[test]
fn a_place_exactly_where_a_content_does_not_fit() {
    let mut dice = Dice::new(8);
    let mut asked = 0;
    while asked < 20_000 {
        let (form, content) = form_and_content(&mut dice);
        if is_reduced(&content) {
            assert_eq!(field_misfit(form, &content).is_none(), field_fits(form, &content), "{form} {}", text(&content));
            asked += 1;
        }
    }
}

/// A message with its white space reduced, and the place as sent of each byte: of a run the first byte, and so where it drops out before `-` or `)`.
fn reduced(sent: &[u8]) -> (Bytes, Vec<usize>) {
    let (mut bytes, mut places) = (Vec::new(), Vec::new());
    let mut place = 0;
    while let Some(&byte) = sent.get(place) {
        let run = sent[place..].iter().take_while(|b| b" \r\n".contains(b)).count();
        let closes = sent.get(place + run).filter(|b| b"-)".contains(b));
        let opened = matches!(bytes.last(), Some(b'(' | b'-'));
        places.push(place);
        match closes {
            Some(&closing) if run > 0 && !opened => {
                bytes.push(closing);
                place += run + 1;
            }
            _ => {
                bytes.push(if run > 0 { b' ' } else { byte });
                place += run.max(1);
            }
        }
    }
    (bytes, places)
}

/// White space moves the place of 7 as it moves the byte.
#[test]
fn white_space() {
    let mut dice = Dice::new(9);
    let mut moved = 0;
    for _ in 0..40_000 {
        let sent = piece(&mut dice);
        let (plain, places) = reduced(&sent);
        if let Err(Refusal { number: 7, field, place }) = read(&plain, LONGEST) {
            if sent.len() <= LONGEST {
                let due = Refusal { number: 7, field, place: places[place] };
                assert_eq!(read(&sent, LONGEST), Err(due), "{}", text(&sent));
                moved += usize::from(places[place] != place);
            }
        }
    }
    assert!(moved > 500, "{moved}");
}
