//! Texts at the limits of a table, and far beyond: deep, tall, with many nodes or configurations.

use super::random::Random;
use super::write::form;

/// The longest text of a line.
pub const LONGEST_TEXT: usize = 33_000;

/// A core in so many brackets of one kind.
pub fn deep(times: usize, open: &str, core: &str, close: &str) -> String {
    open.repeat(times) + core + &close.repeat(times)
}

/// How many brackets of one kind a text of the greatest length holds.
pub fn deepest(open: &str, core: &str, close: &str) -> usize {
    (LONGEST_TEXT - core.len()) / (open.len() + close.len())
}

/// Parts under few forms of one name, twenty parts each, so that thousands of them are few levels deep.
pub fn broad(name: &str, parts: Vec<String>) -> String {
    let group = |parts: &[String]| if let [part] = parts { part.clone() } else { form(name, parts) };
    let mut parts = parts;
    while parts.len() > 1 {
        parts = parts.chunks(20).map(group).collect();
    }
    parts.remove(0)
}

/// Parts that make so many nodes under forms of two; an even number has a Control.
pub fn nodes(count: usize) -> Vec<String> {
    let mut parts = vec![form("Stop", &[]); count.div_ceil(2)];
    if count.is_multiple_of(2) {
        parts[0] = "Jr.Control(0, Jr.Stop())".to_string();
    }
    parts
}

/// A configuration of so many records, as low as can be; an even number has a `not`.
pub fn bush(records: usize) -> String {
    match records {
        1 => "0".to_string(),
        2 => "(not 1)".to_string(),
        _ => {
            let first = (records - 1) / 2;
            format!("({} or {})", bush(first), bush(records - 1 - first))
        }
    }
}

/// Brackets that make a program deeper, and those that make a configuration higher.
pub const DEEPER: [(&str, &str); 14] = [
    ("Jr.Loop(", ")"),
    ("Jr.RepeatExt(2, 1, ", ")"),
    ("Jr.If(15, Jr.Stop(), ", ")"),
    ("Jr.If(0, ", ", Jr.Stop())"),
    ("Jr.Repeat(1, ", ")"),
    ("Jr.Control(0, ", ")"),
    ("Jr.Local(1, ", ")"),
    ("Jr.Freezable(1, ", ")"),
    ("Jr.Seq(", ", Jr.Stop())"),
    ("Jr.Seq(Jr.Stop(), ", ")"),
    ("Jr.Par(", ", Jr.Atom(1))"),
    ("Jr.Par(Jr.Stop(), Jr.Generate(1), ", ")"),
    ("Jr.When(0, ", ", Jr.Stop())"),
    ("Jr.Until((not 0), Jr.Stop(), ", ")"),
];
pub const HIGHER: [(&str, &str); 5] =
    [("(not ", ")"), ("(", " and 0)"), ("(1 and ", ")"), ("(", " or 2)"), ("(0 or ", ")")];

/// A random text at or beyond some limit of a table.
pub fn near(r: &mut Random) -> String {
    match r.weigh(&[35, 35, 8, 8, 8, 6]) {
        0 => {
            let (open, close) = *r.pick(&DEEPER);
            let times = r.between(60, 66);
            deep(times, open, "Jr.Stop()", close)
        }
        1 => {
            let (open, close) = *r.pick(&HIGHER);
            let times = r.between(13, 18);
            format!("Jr.Seq(Jr.Await(3), Jr.Await({}))", deep(times, open, "4", close))
        }
        2 => {
            let (open, close) = *r.pick(&DEEPER);
            let most = deepest(open, "Jr.Stop()", close);
            let times = r.between(most / 2, most);
            deep(times, open, "Jr.Stop()", close)
        }
        3 => {
            let (open, close) = *r.pick(&HIGHER);
            let most = deepest(open, "Jr.Await(7)", close);
            let times = r.between(most / 4, most);
            format!("Jr.Await({})", deep(times, open, "7", close))
        }
        4 => broad("Par", nodes(r.between(4_093, 4_098))),
        _ => {
            let records = r.between(2_046, 2_050);
            format!("Jr.Await({})", bush(records))
        }
    }
}
