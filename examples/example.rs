//! Beechdoublet from Rust: reads messages, files a strip, keeps it up to date, says why it is not, asks for a field in force, shows fields and the
//! parts of plans, and keeps a board for two firms.
//! Every line that it writes stands in examples/expected.txt.

mod beechdoublet;

use beechdoublet::{cause, field, in_force, is_sound, plan, read, update, Board, Cause, Numbers, Part, Refusal, State, MOST};

const TYPES: [&str; 10] = ["", "FPL", "CHG", "CNL", "DLA", "DEP", "ARR", "RQP", "RQS", "SPL"];
const PLAN: &[u8] = b"(FPL-ABC12-IS-B738/M-SDFG/S-EHAM0930-N0440F310 DCT PAM DCT-EDDF0100 EDDK-0)";
const CHANGE: &[u8] = b"(CHG-ABC12-EHAM0930-EDDF-0-9/B39M/M-8/IN)";
const DEPARTURE: &[u8] = b"(DEP-ABC12-EHAM0941-EDDF-0)";

/// A strip: an accepted FPL's spelling, and its state as numbers.
#[derive(Clone)]
struct Strip {
    spelling: Vec<u8>,
    state: Numbers,
}

fn text(bytes: &[u8]) -> &str {
    std::str::from_utf8(bytes).unwrap_or_default()
}

fn refusal(refusal: Refusal) -> String {
    format!("NO {} {} {}", refusal.number, refusal.field, refusal.place)
}

fn clock(minute: u64) -> String {
    format!("{:02}{:02}", minute / 60, minute % 60)
}

fn shown(state: &Numbers) -> String {
    match State::of(state) {
        Some(State::Filed) => "FILED".to_string(),
        Some(State::Departed { time }) => format!("DEPARTED {}", clock(time)),
        Some(State::Arrived { departed, aerodrome, time }) => {
            let departed = departed.map(|time| format!(" {}", clock(time))).unwrap_or_default();
            format!("ARRIVED{departed} {} {}", text(&aerodrome), clock(time))
        }
        Some(State::Cancelled) => "CANCELLED".to_string(),
        None => "NO STATE".to_string(),
    }
}

/// Reads a message into an output of so many bytes.
fn show_reading_in(message: &[u8], room: usize) {
    let mut out = vec![0; room];
    match read(message, &mut out) {
        Ok((kind, spelling)) => println!("OK {} {}", TYPES[kind as usize], text(spelling)),
        Err(why) => println!("{}", refusal(why)),
    }
}

/// As many bytes as the message has are always enough.
fn show_reading(message: &[u8]) {
    show_reading_in(message, message.len());
}

/// Why a message is refused, behind its number: what differs, the missing key, or the state found.
fn why(cause: Cause) -> String {
    match cause {
        Cause::NothingMore => String::new(),
        Cause::Another { identification, aerodrome, time, destination, date } => [
            (identification, " IDENTIFICATION"),
            (aerodrome, " AERODROME"),
            (time, " TIME"),
            (destination, " DESTINATION"),
            (date, " DATE"),
        ]
        .iter()
        .filter(|(differs, _)| *differs)
        .map(|(_, name)| *name)
        .collect(),
        Cause::Missing(key) => format!(" {key}"),
        Cause::Forbidden(state) => format!(" {}", shown(&state)),
    }
}

/// Offers a message to a strip. The new strip comes in another buffer, which then takes the old one's place.
fn offer_in(held: &mut Strip, message: &[u8], room: usize) {
    let mut out = vec![0; room];
    match update(&held.spelling, &mut held.state, message, &mut out) {
        Ok(spelling) => {
            println!("OK {} {}", shown(&held.state), text(spelling));
            let length = spelling.len();
            out.truncate(length);
            held.spelling = out;
        }
        Err(refused) => println!("{}{}", refusal(refused), why(cause(&held.spelling, &held.state, message))),
    }
}

/// As many bytes as strip and message have together are always enough.
fn offer(held: &mut Strip, message: &[u8]) {
    let room = held.spelling.len() + message.len();
    offer_in(held, message, room);
}

/// Offers a message to the strip with another state, of which nothing is kept.
fn offer_with(held: &Strip, state: Numbers, message: &[u8]) {
    print!("{} ", if is_sound(&state) { "SOUND" } else { "NO STATE" });
    offer(&mut Strip { state, ..held.clone() }, message);
}

fn show_in_force(held: &Strip, change: &[u8], field: u64) {
    match in_force(&held.spelling, &held.state, change, field) {
        Ok(Part::InStrip { from, to, content }) => println!("STRIP {from} {to} {}", text(content)),
        Ok(Part::InChange { from, to, content }) => println!("CHG {from} {to} {}", text(content)),
        Err(why) => println!("{}", refusal(why)),
    }
}

/// Shows the content of a message's field, by the field's number, and where it stands.
fn show_field(message: &[u8], number: u64) {
    match field(message, number) {
        Ok((at, content)) => println!("FIELD {} {} {}", at.start, at.end, text(content)),
        Err(why) => println!("{}", refusal(why)),
    }
}

/// Shows the parts of a plan: identification, how many of which type, aerodrome and off-block time, destination and elapsed minutes, alternates, date.
fn show_plan(message: &[u8]) {
    let parts = match plan(message) {
        Ok(parts) => parts,
        Err(why) => return println!("{}", refusal(why)),
    };
    print!("PLAN {} {} {}", text(parts.identification), parts.aircraft, text(parts.kind));
    print!(" {} {}", text(parts.departure), clock(parts.off_block));
    print!(" {} {}", text(parts.destination), parts.elapsed);
    for alternate in parts.alternates {
        print!(" {}", text(alternate));
    }
    if let Some((year, month, day)) = parts.date {
        print!(" {year}-{month:02}-{day:02}");
    }
    println!();
}

fn show_readings() {
    show_reading(b"(CNL-ABC12-EHAM0930-EDDF-0)");
    show_reading(b"(DLA-ABC12-EHAM2460-EDDF-0)");
    show_reading(b"(ACP-ABC12)");
    show_reading(b"(CNL-ABC12 -EHAM0930\r\n-EDDF\r\n-0 )");
    show_reading(b"(SPL-ABC12-EHAM0930-EDDF0100-0-E/0745 P/006 R/EV J/L)");
    show_reading(b"");
    show_reading_in(b"(CNL-ABC12-EHAM0930-EDDF-0)", 27);
    show_reading_in(b"(CNL-ABC12-EHAM0930-EDDF-0)", 26);
    show_reading_in(b"(CNL-ABC12-EHAM0930-EDDF-0)", 0);
}

fn show_parts(held: &Strip) {
    show_in_force(held, CHANGE, 9);
    show_in_force(held, CHANGE, 10);
    show_in_force(held, CHANGE, 22);
    show_in_force(held, CHANGE, 263);
    show_in_force(held, b"(CHG-ABC12-EHAM0930-EDDF-0 -9/B39M/M-8/IN)", 9);
    show_in_force(held, b"(CHG-ABC13-EHAM0930-EDDF-0-9/B39M/M)", 9);
    show_in_force(held, DEPARTURE, 9);
}

fn show_fields() {
    show_field(PLAN, 9);
    show_field(PLAN, 3);
    show_field(PLAN, 18);
    show_field(PLAN, 22);
    show_field(PLAN, 263);
    show_field(CHANGE, 22);
    show_field(CHANGE, 9);
    show_field(b"(CNL-ABC12 -EHAM0930-EDDF-0)", 13);
    show_field(b"(DLA-ABC12-EHAM2460-EDDF-0)", 13);
}

fn show_plans() {
    show_plan(PLAN);
    show_plan(b"(FPL-ABC12/A7777-IS-2FK27/M-SDFG/S-EHAM2359-N0440F310 DCT-EDDF0100 EDDK EDDL-DOF/240229)");
    show_plan(CHANGE);
    show_plan(b"(FPL-ABC12 -IS-B738/M-SDFG/S-EHAM0930-N0440F310 DCT PAM DCT-EDDF0100 EDDK-0)");
    show_plan(b"(ACP-ABC12)");
    show_plan(b"(FPL-ABC12-IS-ZZZZ/M-SDFG/S-EHAM0930-N0440F310 DCT-EDDF0100-0)");
}

fn show_states(held: &Strip) {
    offer_with(held, [4, 0, 0, 0, 0, 0, 0, 0], CHANGE);
    offer_with(held, State::Departed { time: 1439 }.numbers(), CHANGE);
    offer_with(held, State::Departed { time: 1440 }.numbers(), CHANGE);
    offer_with(held, State::Departed { time: 70000 }.numbers(), CHANGE);
    offer_with(held, [0, 1, 575, 0, 0, 0, 0, 0], CHANGE);
    offer_with(held, State::Arrived { departed: None, aerodrome: *b"AB1D", time: 642 }.numbers(), CHANGE);
    offer_with(held, State::Cancelled.numbers(), CHANGE);
}

fn show_flight(held: &mut Strip) {
    offer(held, CHANGE);
    offer(held, b"(CHG-ABC13-EHAM0930-EDDF-0-8/IS)");
    offer_in(held, b"(DLA-ABC12-EHAM0935-EDDF-0)", 0);
    offer(held, b"(DLA-ABC12-EHAM0935-EDDF-0)");
    offer(held, b"(CHG-ABC12-EHAM0930-EDDK-0-8/IS)");
    offer(held, b"(RQP-ABC12-EHAM0935-EDDF-0)");
    offer(held, b"(CHG-ABC12-EHAM0935-EDDF-0-16/ZZZZ0100)");
    offer(held, DEPARTURE);
    offer(held, b"(CNL-ABC12-EHAM0935-EDDF-0)");
    offer(held, b"(ARR-ABC12-EHAM0935-EDDF-EDDK1042)");
    offer(held, CHANGE);
    show_plan(&held.spelling);
}

/// A departure on another day than the strip's.
fn show_another_day() {
    let plan = b"(FPL-ABC12-IS-B738/M-SDFG/S-EHAM0930-N0440F310 DCT PAM DCT-EDDF0100 EDDK-DOF/240229)";
    let Some(mut held) = filed(plan) else { return };
    offer(&mut held, b"(DEP-ABC12-EHAM0941-EDDF-DOF/240301)");
}

/// The state and the strip in a firm's slot, or the refusal.
fn slot_shown(board: &Board, firm: u64, slot: u64) -> String {
    match board.look(firm, slot) {
        Ok((state, strip)) => format!("OK {} {}", shown(&state), text(strip)),
        Err(why) => refusal(why),
    }
}

fn file_at(board: &mut Board, firm: u64, message: &[u8]) {
    match board.file(firm, message) {
        Ok(slot) => println!("{}", slot_shown(board, firm, slot).replacen("OK", &format!("OK {slot}"), 1)),
        Err(why) => println!("{}", refusal(why)),
    }
}

fn update_at(board: &mut Board, firm: u64, slot: u64, message: &[u8]) {
    let found = board.look(firm, slot).map(|(state, strip)| why(cause(strip, &state, message)));
    match board.update(firm, slot, message) {
        Ok(()) => println!("{}", slot_shown(board, firm, slot)),
        Err(refused) => println!("{}{}", refusal(refused), found.unwrap_or_default()),
    }
}

fn clear_at(board: &mut Board, firm: u64, slot: u64) {
    match board.clear(firm, slot) {
        Ok(()) => println!("OK CLEARED"),
        Err(why) => println!("{}", refusal(why)),
    }
}

fn look_at(board: &Board, firm: u64, slot: u64) {
    println!("{}", slot_shown(board, firm, slot));
}

/// Files a plan as often as there is room, and tells how often that was.
fn fill_up(board: &mut Board, firm: u64) {
    let mut filed_now = 0;
    let full = loop {
        match board.file(firm, PLAN) {
            Ok(_) => filed_now += 1,
            Err(why) => break why,
        }
    };
    println!("FILED {filed_now}");
    println!("{}", refusal(full));
}

/// Two firms: what each may do with its own strips, and whom a number or a slot does not name.
fn show_two_firms(board: &mut Board) {
    file_at(board, 1, PLAN);
    file_at(board, 2, b"(FPL-KLM7-IS-B738/M-SDFG/S-EHAM0940-N0440F310 DCT PAM DCT-EDDF0100 EDDK-0)");
    update_at(board, 1, 0, b"(DLA-ABC12-EHAM1015-EDDF-0)");
    update_at(board, 1, 0, CHANGE);
    clear_at(board, 1, 0);
    update_at(board, 1, 0, b"(CNL-ABC12-EHAM1015-EDDF-0)");
    clear_at(board, 1, 0);
    look_at(board, 1, 0);
    look_at(board, 2, 0);
    update_at(board, 1, 10, CHANGE);
    file_at(board, 3, PLAN);
    file_at(board, 257, PLAN);
    file_at(board, 1, CHANGE);
}

/// All sixteen rooms: the first firm takes its 6 and the 4; of the 4 one is free once it has cleared a strip.
fn show_full(board: &mut Board) {
    fill_up(board, 1);
    fill_up(board, 2);
    update_at(board, 1, 3, b"(CNL-ABC12-EHAM0930-EDDF-0)");
    clear_at(board, 1, 3);
    file_at(board, 2, PLAN);
    file_at(board, 1, PLAN);
}

/// Numbers that are no board's: a strip too long, a length where no strip stands. Of a firm that is none 18 comes first.
fn show_no_board(board: &mut Board) {
    let length = board.places[59];
    board.places[59] = MOST as u64 + 1;
    file_at(board, 2, PLAN);
    clear_at(board, 3, 0);
    look_at(board, 2, 0);
    board.places[59] = length;
    board.places[199] = 1;
    update_at(board, 2, 0, CHANGE);
    board.places[199] = 0;
    look_at(board, 2, 0);
}

fn show_board() {
    let mut board = Board::empty();
    show_two_firms(&mut board);
    show_full(&mut board);
    show_no_board(&mut board);
}

/// A filed strip: the spelling of an FPL.
fn filed(plan: &[u8]) -> Option<Strip> {
    let mut out = [0; MOST];
    let Ok((1, spelling)) = read(plan, &mut out) else { return None };
    Some(Strip { spelling: spelling.to_vec(), state: State::Filed.numbers() })
}

fn main() {
    let Some(mut held) = filed(PLAN) else { return };
    show_readings();
    show_parts(&held);
    show_fields();
    show_plans();
    show_states(&held);
    show_flight(&mut held);
    show_another_day();
    show_board();
}
