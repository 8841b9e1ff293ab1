//! The outside vectors: every line is answered by the second opinion and by the face, and both are
//! held to what the line expects.

use crate::ffi::{self, Face};
use crate::hex;
use crate::opinion::{self, Answer, Refusal};
use std::collections::BTreeMap;

/// Lines that the files of vectors have together.
pub const LINES: usize = 860;
/// Tables that are shipped at least.
pub const TABLES: usize = 17;

/// How many lines there were of each kind.
pub type Kinds = BTreeMap<String, usize>;

/// Runs a file of vectors; counts its lines, or returns the first wrong one.
pub fn run(text: &str, face: &dyn Face, kinds: &mut Kinds) -> Result<(), String> {
    for (index, line) in text.lines().enumerate() {
        let kind = check_line(line, face).map_err(|why| format!("line {}: {why}\n{line}", index + 1))?;
        *kinds.entry(kind).or_insert(0) += 1;
    }
    Ok(())
}

fn check_line(line: &str, face: &dyn Face) -> Result<String, String> {
    let (question, expected) = line.split_once(" -> ").ok_or("no ->")?;
    let words: Vec<&str> = question.split_whitespace().collect();
    let answers = match words[..] {
        ["J", "1", table, lent] => judge(&bytes(table)?, number(lent)? as usize, face),
        ["W", "1", sheet, wire] => ask_wire(&bytes(sheet)?, number(wire)?, face),
        ["C", "1", sheet, channel] => ask_channel(&bytes(sheet)?, number(channel)?, face),
        ["P", framing, payload] => price(number(framing)?, number(payload)?, face),
        ["B", table] => board(&bytes(table)?, face),
        ["N", roll, which] => label(&bytes(roll)?, number(which)?, face),
        _ => return Err("a line of no known kind".to_string()),
    };
    for (who, answer) in ["the second opinion", face.name()].iter().zip(answers) {
        if answer != expected {
            return Err(format!("{who} says {answer}"));
        }
    }
    Ok(words[0].to_string())
}

fn bytes(word: &str) -> Result<Vec<u8>, String> {
    hex::read(word).ok_or(format!("not hexadecimal: {word}"))
}

fn number(word: &str) -> Result<u64, String> {
    word.parse().map_err(|_| format!("not a number: {word}"))
}

/// The second opinion's answer and the face's, as the vectors write them.
type Both = [String; 2];

fn judge(table: &[u8], lent: usize, face: &dyn Face) -> Both {
    let (reply, buffer) = opinion::judge(table, lent);
    let first = match reply {
        Ok(length) => format!("A {length} {}", hex::show(&buffer)),
        Err(refusal) => format!("{} {}", refused(refusal), hex::show(&buffer)),
    };
    let mut buffer = vec![0x5a; lent];
    let second = match taken_apart(face.judge(table, &mut buffer)) {
        Ok(length) => format!("A {length} {}", hex::show(&buffer)),
        Err(refusal) => format!("{} {}", refused(refusal), hex::show(&buffer)),
    };
    [first, second]
}

fn ask_wire(sheet: &[u8], wire: u64, face: &dyn Face) -> Both {
    let first = match opinion::ask_wire(sheet, wire) {
        Ok((backlog, delay)) => format!("V {backlog} {delay}"),
        Err(refusal) => refused(refusal),
    };
    let second = match taken_apart(face.ask_wire(sheet, wire)) {
        Ok(value) => format!("V {} {}", value >> 24, value & 0xff_ffff),
        Err(refusal) => refused(refusal),
    };
    [first, second]
}

fn ask_channel(sheet: &[u8], channel: u64, face: &dyn Face) -> Both {
    let first = figure(opinion::ask_channel(sheet, channel));
    [first, figure(taken_apart(face.ask_channel(sheet, channel)).map(u128::from))]
}

fn price(framing: u64, payload: u64, face: &dyn Face) -> Both {
    let first = figure(opinion::price(framing, payload));
    [first, figure(taken_apart(face.price(framing, payload)).map(u128::from))]
}

fn label(roll: &[u8], number: u64, face: &dyn Face) -> Both {
    let first = match opinion::ask_label(roll, number) {
        Ok(stretch) => format!("V {} {}", stretch.start, stretch.end),
        Err(refusal) => refused(refusal),
    };
    let second = match taken_apart(face.label(roll, number)) {
        Ok(value) => format!("V {} {}", value >> 16, (value >> 16) + (value & 0xffff)),
        Err(refusal) => refused(refusal),
    };
    [first, second]
}

fn figure(answer: Answer<u128>) -> String {
    match answer {
        Ok(value) => format!("V {value}"),
        Err(refusal) => refused(refusal),
    }
}

fn refused(refusal: Refusal) -> String {
    format!("R {} {}", refusal.number, refusal.place)
}

/// A reply in 64 bits, taken apart.
fn taken_apart(reply: u64) -> Answer<u64> {
    match (reply >> 56) as u8 {
        0 => Ok(reply),
        number => Err(Refusal { number, place: (reply >> 48) as u8 }),
    }
}

fn board(table: &[u8], face: &dyn Face) -> Both {
    [opinion::board(table), board_by(table, face)].map(|text| text.replace('\n', "|").replace(' ', "_"))
}

/// The board's text from the figures that the face gives back for its own sheet.
fn board_by(table: &[u8], face: &dyn Face) -> String {
    let mut buffer = vec![0; 834];
    let length = match taken_apart(face.judge(table, &mut buffer)) {
        Ok(length) => length as usize,
        Err(Refusal { number, place }) => return format!("refused {number} {place}\n"),
    };
    let sheet = &buffer[..length];
    let Ok(decoded) = opinion::decode(table) else { return "accepted what cannot be read\n".to_string() };
    let mut text = format!("accepted {} {}\n", decoded.wires.len(), decoded.channels.len());
    for wire in 0..decoded.wires.len() as u64 {
        let reply = face.ask_wire(sheet, wire);
        text += &format!("link {wire} {} {}\n", reply >> 24, reply & 0xff_ffff);
    }
    for (number, channel) in decoded.channels.iter().enumerate() {
        text += &format!("channel {number} {} {}\n", face.ask_channel(sheet, number as u64), channel.deadline);
    }
    text
}

/// The shipped tables: every `NAME.table` of a folder gets the board's text in `NAME.expected`. Returns how many.
pub fn shipped_tables(folder: &str, face: &dyn Face) -> Result<usize, String> {
    let of = |path: &std::path::Path| std::fs::read(path).map_err(|why| format!("{}: {why}", path.display()));
    let entries = std::fs::read_dir(folder).map_err(|why| format!("{folder}: {why}"))?;
    let mut count = 0;
    for path in entries.map_while(Result::ok).map(|entry| entry.path()) {
        if path.extension().is_some_and(|suffix| suffix == "table") {
            let (table, expected) = (of(&path)?, of(&path.with_extension("expected"))?);
            for text in [opinion::board(&table), board_by(&table, face)] {
                if text.as_bytes() != expected {
                    return Err(format!("{}: {text}", path.display()));
                }
            }
            count += 1;
        }
    }
    Ok(count)
}

/// The prices that document 01 and request Q-2 give to check by; Q-4 leaves them.
pub fn document_prices(face: &dyn Face) -> Result<(), String> {
    let plain =
        [(1, 88), (37, 88), (38, 88), (39, 89), (1_492, 1_542), (1_493, 1_630), (1_530, 1_630), (65_535, 67_735)];
    let udp = [(10, 88), (11, 89), (1_465, 1_630)];
    let all = plain.iter().map(|p| (0, p)).chain(udp.iter().map(|p| (1, p)));
    for (framing, &(payload, cost)) in all {
        let opinion = ffi::figure_reply(&opinion::price(framing, payload));
        if opinion != cost || face.price(framing, payload) != cost {
            return Err(format!("price of {payload} with framing {framing} is not {cost}"));
        }
    }
    Ok(())
}

/// Case A of request Q-4 with a room one byte short, with a deadline one slot short, and with too long a payload.
pub fn short_cases(face: &dyn Face) -> Result<(), String> {
    let cases = [
        ("000370020200e0018c60001000058000c6b100", "refused 13 0\n"),
        ("000370020200e0018c80001000058000c6a100", "refused 14 0\n"),
        ("000370020200e0018c80027000058000c6b100", "refused 12 0\n"),
    ];
    for (table, expected) in cases {
        let bytes = bytes(table)?;
        if opinion::board(&bytes) != expected || board_by(&bytes, face) != expected {
            return Err(format!("{table} is not {expected}"));
        }
    }
    Ok(())
}
