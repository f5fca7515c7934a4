//! Damaged texts: bytes flipped, cut, put in or left out; wrong blanks, names, numbers, parts and ends.

use super::random::Random;

/// A text that is damaged in one or two ways. Most, not all, have no reading.
pub fn damaged(r: &mut Random, text: &str) -> Vec<u8> {
    let mut bytes = text.as_bytes().to_vec();
    for _ in 0..if r.chance(80) { 1 } else { 2 } {
        match r.weigh(&[30, 27, 18, 10, 15]) {
            0 => spell_wrongly(r, &mut bytes),
            1 => change_a_byte(r, &mut bytes),
            2 => change_a_number(r, &mut bytes),
            3 => change_the_parts(r, &mut bytes),
            _ => end_wrongly(r, &mut bytes),
        }
    }
    bytes
}

/// What stands in a text, and what may be written there by mistake.
const MISTAKES: [(&str, &[&str]); 24] = [
    (", ", &[",", " ,", ",  ", ", , ", ",,", "; ", ",\t", ",\n", " ", ""]),
    ("Jr.", &["jr.", "JR.", "Jr", "Jr .", "", "Jr.Jr."]),
    ("(", &["( ", " (", "((", "", "["]),
    (")", &[" )", ") ", "))", "", "]"]),
    ("()", &["( )", "(0)", "", "(", ")"]),
    (" and ", &["and ", " and", "  and ", " and  ", " or ", " AND ", " not ", " & "]),
    (" or ", &["or ", " or", "  or ", " or  ", " and ", " OR ", " | "]),
    ("(not ", &["(not", "(not  ", "not ", "( not ", "(Not ", "(no ", "((not "]),
    ("Nothing", &["nothing", "Nothin", "Nothings", "Not"]),
    ("Stop", &["Stops", "Sto", "Seq", "STOP", "Halt"]),
    ("Atom", &["Await", "Ato", "atom", "Atoms"]),
    ("Seq", &["Par", "Se", "seq", "Sequence"]),
    ("Par", &["Seq", "Pa", "par", "Parallel"]),
    ("Loop", &["Lop", "Local", "Loops", "loop"]),
    ("Repeat", &["Repea", "Loop", "RepeatExt", "Control"]),
    ("Generate", &["Await", "Control", "Generates", "Gen"]),
    ("Await", &["Generate", "Awaits", "Wait", "Atom"]),
    ("When", &["Until", "Whe", "Control", "If"]),
    ("Until", &["When", "Unti", "Until*", "Seq"]),
    ("Control", &["Local", "Repeat", "Contro", "Freezable"]),
    ("If", &["When", "IF", "I", "Iff", "RepeatExt"]),
    ("RepeatExt", &["Repeat", "RepeatEx", "RepeatExts", "Repeatext", "If"]),
    ("Freezable", &["Freeze", "Freezabl", "Freezables", "freezable", "Control", "Local"]),
    ("Stop()", &["Seq()", "Seq(Jr.Stop())", "Par(Jr.Stop())", "Loop(Jr.Stop(), Jr.Stop())", "Loop()", "Await()"]),
];

/// Writes a mistake in place of something that the text has.
fn spell_wrongly(r: &mut Random, bytes: &mut Vec<u8>) {
    for _ in 0..9 {
        let (right, wrong) = *r.pick(&MISTAKES);
        let places: Vec<usize> =
            bytes.windows(right.len()).enumerate().filter(|(_, part)| *part == right.as_bytes()).map(|p| p.0).collect();
        if !places.is_empty() {
            let place = *r.pick(&places);
            bytes.splice(place..place + right.len(), r.pick(wrong).bytes());
            return;
        }
    }
}

/// Flips, changes, puts in, leaves out, doubles or exchanges a byte.
fn change_a_byte(r: &mut Random, bytes: &mut Vec<u8>) {
    if bytes.len() < 2 {
        return;
    }
    let place = r.below(bytes.len() - 1);
    let usual = *r.pick(b"Jr.()0123456789,, andotNSeqPLRGAWUC\n\t\0");
    match r.below(6) {
        0 => bytes[place] ^= 1 << r.below(8),
        1 => bytes[place] = usual,
        2 => bytes.insert(place, usual),
        3 => drop(bytes.remove(place)),
        4 => bytes.insert(place, bytes[place]),
        _ => bytes.swap(place, place + 1),
    }
}

/// Writes another number, or something that isn't one, in place of a number.
fn change_a_number(r: &mut Random, bytes: &mut Vec<u8>) {
    let starts: Vec<usize> =
        (1..bytes.len()).filter(|&place| bytes[place].is_ascii_digit() && !bytes[place - 1].is_ascii_digit()).collect();
    if starts.is_empty() {
        return;
    }
    let start = *r.pick(&starts);
    let digits = bytes[start..].iter().take_while(|byte| byte.is_ascii_digit()).count();
    let old = String::from_utf8_lossy(&bytes[start..start + digits]).into_owned();
    let new = match r.below(8) {
        0 => format!("0{old}"),
        1 => format!("{old}0"),
        2 => format!("{old}5"),
        3 => format!("{}{old}", r.pick(&["+", "-", " ", "00", "1"])),
        _ => r
            .pick(&[
                "0", "00", "01", "15", "16", "20", "255", "256", "300", "999", "1000", "1023", "1024", "1030", "2550",
                "65535", "65536", "65540",
            ])
            .to_string(),
    };
    let new = if r.chance(15) {
        r.pick(&["", "x", "65600", "66000", "70000", "99999", "100000", "655350", "4294967296", "18446744073709551616"])
            .to_string()
    } else {
        new
    };
    bytes.splice(start..start + digits, new.bytes());
}

/// Leaves out a part behind a comma, or writes it twice. A Seq or Par with parts enough stays good.
fn change_the_parts(r: &mut Random, bytes: &mut Vec<u8>) {
    let commas: Vec<usize> = (0..bytes.len()).filter(|&place| bytes[place] == b',').collect();
    if commas.is_empty() {
        return;
    }
    let start = *r.pick(&commas);
    let mut open = 0;
    let length = bytes[start + 1..].iter().take_while(|&&byte| {
        open += i32::from(byte == b'(') - i32::from(byte == b')');
        open > 0 || open == 0 && byte != b','
    });
    let part = bytes[start..start + 1 + length.count()].to_vec();
    if r.chance(60) {
        bytes.drain(start..start + part.len());
    } else {
        bytes.splice(start..start, part);
    }
}

/// Cuts the text off, or adds to it.
fn end_wrongly(r: &mut Random, bytes: &mut Vec<u8>) {
    if r.chance(60) {
        bytes.truncate(r.below(bytes.len() + 1));
    } else {
        let more = *r.pick(&["\n", " ", ")", "()", ", ", ",", "\0", "\r\n", ".", "J", "Jr.Stop()", "0", "\u{e9}"]);
        bytes.extend(more.bytes());
    }
}
