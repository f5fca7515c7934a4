//! Lines of the two calls of the written form at every limit and every kind of fault.

use super::print_edges;
use super::wide::{broad, bush, deep, deepest, nodes, DEEPER, HIGHER};
use super::write::form;
use crate::layout::Layout;
use crate::lines::{print, Call};
use crate::ways;
use std::collections::HashSet;

/// All edge lines, each once: texts without a reading, good ones, limits, and then printing.
pub fn lines() -> Vec<String> {
    let mut edges = Edges(vec![]);
    edges.forms();
    edges.names();
    edges.numbers();
    edges.values_and_caps();
    edges.frozen();
    edges.blanks();
    edges.brackets_and_parts();
    edges.ends();
    edges.several_parts();
    edges.events_and_configurations();
    edges.refused_tables();
    edges.depth_and_height();
    edges.many_records();
    edges.longest_tables();
    edges.odd_lines();
    print_edges::add(&mut edges);
    let mut met = HashSet::new();
    edges.0.retain(|line| met.insert(line.clone()));
    edges.0
}

/// The longest room of a line.
const LONGEST_ROOM: usize = 33_000;

/// What stands in rooms beyond what a call may write.
const OTHER: u8 = 0xa5;

/// A short text with each kind of bracket, blank and number.
const SAMPLE: &str = "Jr.When((1 and (not 20)), Jr.Seq(Jr.Stop(), Jr.Atom(65)), Jr.Await((3 or 4)))";

/// How many bytes the table of a text with a reading needs.
fn needed(text: &str) -> usize {
    Layout::new(ways::read(text.as_bytes()).expect("a text of the form")).length()
}

pub struct Edges(Vec<String>);

impl Edges {
    fn add(&mut self, call: Call) {
        self.0.push(print(&call));
    }

    fn read(&mut self, text: impl AsRef<[u8]>, room: usize) {
        self.add(Call::Read { text: text.as_ref().to_vec(), room: vec![OTHER; room] });
    }

    /// A text in a room that is exact, long and short by one.
    fn in_rooms(&mut self, text: &str) {
        let needed = needed(text);
        for room in [needed, needed + 3, needed - 1] {
            self.read(text, room);
        }
    }

    /// A text in a room that is exact, or as long as a line's can be.
    pub fn exact(&mut self, text: &str) {
        self.read(text, needed(text).min(LONGEST_ROOM));
    }

    /// Texts that fail, in a room that would not do anyway.
    fn failing(&mut self, texts: &[&str]) {
        for text in texts {
            self.read(text, 3);
        }
    }

    pub fn print(&mut self, table: &[u8], room: usize) {
        self.add(Call::Print { table: table.to_vec(), room: vec![OTHER; room] });
    }

    // Every form alone, and every kind of configuration (F8).
    fn forms(&mut self) {
        for text in [
            "Jr.Nothing()",
            "Jr.Stop()",
            "Jr.Atom(7)",
            "Jr.Seq(Jr.Stop(), Jr.Nothing())",
            "Jr.Par(Jr.Stop(), Jr.Nothing())",
            "Jr.Loop(Jr.Stop())",
            "Jr.Repeat(3, Jr.Stop())",
            "Jr.Generate(5)",
            "Jr.Await(3)",
            "Jr.Await((not 3))",
            "Jr.Await((1 and 2))",
            "Jr.Await((2 or 1))",
            "Jr.When((1 and (not 2)), Jr.Atom(1), Jr.Atom(2))",
            "Jr.Until(((not 0) or (1 and 2)), Jr.Stop(), Jr.Atom(5))",
            "Jr.Control(4, Jr.Stop())",
            "Jr.Local(0, Jr.Generate(0))",
            "Jr.Freezable(4, Jr.Stop())",
        ] {
            self.exact(text);
        }
        for text in ["Jr.Nothing()", "Jr.Await(3)", "Jr.Repeat(3, Jr.Stop())", SAMPLE] {
            self.in_rooms(text);
        }
        self.read("Jr.Nothing()", 0);
        self.read("Jr.Stop()", 33_000);
    }

    // Names: each cut or spelt otherwise; forms of later requests.
    fn names(&mut self) {
        self.failing(&[
            "",
            "J",
            "jr.Stop()",
            "Jr Stop()",
            "Stop()",
            "Jr.",
            "Jr.X",
            "Jr.nothing()",
            "Jr.Nothin()",
            "Jr.Sequence(",
            "Jr.Stop",
            "Jr.Stops()",
            "Jr.Lop",
            "Jr.Locap",
            "Jr.Parallel(",
            "Jr.Ato",
            "Jr.Unless(",
            "Jr.Until*(",
            "Jr.Controls",
            "Jr.Iff(1, Jr.Stop(), Jr.Stop())",
            "Jr.I",
            "Jr.RepeatEx(1, 2, Jr.Stop())",
            "Jr.RepeatExtend(",
            "Jr.Freezabl(1, Jr.Stop())",
            "Jr.Freezables(",
            "Jr.Machine(Jr.Stop())",
            "\u{feff}Jr.Stop()",
        ]);
        self.read([0xff], 16);
        self.read(b"Jr.Sto\xf0()", 16);
        self.read(b"Jr.Stop\0()", 16);
    }

    // Numbers: events below 1,024, others at most 65,535, no leading zeros (F1), in each place that takes one.
    fn numbers(&mut self) {
        let events: [fn(&str) -> String; 8] = [
            |n| format!("Jr.Generate({n})"),
            |n| format!("Jr.Await({n})"),
            |n| format!("Jr.Await((not {n}))"),
            |n| format!("Jr.Await((0 and {n}))"),
            |n| format!("Jr.Await(({n} or 0))"),
            |n| format!("Jr.Control({n}, Jr.Stop())"),
            |n| format!("Jr.Local({n}, Jr.Stop())"),
            |n| format!("Jr.Freezable({n}, Jr.Stop())"),
        ];
        let others: [fn(&str) -> String; 2] = [|n| format!("Jr.Atom({n})"), |n| format!("Jr.Repeat({n}, Jr.Stop())")];
        for place in events {
            self.exact(&place("255"));
            self.exact(&place("256"));
            self.exact(&place("1023"));
            self.failing(&[&place("1024"), &place("01")]);
        }
        for place in others {
            self.exact(&place("65535"));
            self.failing(&[&place("65536"), &place("00")]);
        }
        for number in
            ["0", "9", "10", "99", "100", "102", "103", "249", "250", "511", "512", "768", "999", "1000", "1019"]
        {
            self.exact(&events[1](number));
        }
        for number in ["", "-1", "+1", " 1", "1 ", "x", "00", "0x1", "0256", "1030", "1100", "2000", "2555", "10230"] {
            self.failing(&[&events[1](number)]);
        }
        for number in ["0", "256", "9999", "10000", "60000", "65499", "65529"] {
            self.exact(&others[0](number));
        }
        for number in ["", "1.0", "007", "65540", "65600", "66000", "70000", "99999", "100000", "4294967297"] {
            self.failing(&[&others[0](number)]);
        }
        self.failing(&[
            "Jr.Atom(18446744073709551616)",
            "Jr.Atom(6553",
            "Jr.Atom(65535",
            "Jr.Await(0",
            "Jr.Await(25",
            "Jr.Await(102",
        ]);
    }

    // L14: a value's number up to 15, a cap up to 255, both counted in no event; their parts in their order.
    fn values_and_caps(&mut self) {
        let choice = |n: &str| format!("Jr.If({n}, Jr.Atom(1), Jr.Await(2))");
        let value = |n: &str| format!("Jr.RepeatExt({n}, 3, Jr.Stop())");
        let cap = |n: &str| format!("Jr.RepeatExt(4, {n}, Jr.Stop())");
        for number in ["0", "1", "9", "10", "15"] {
            self.exact(&choice(number));
            self.exact(&value(number));
        }
        for number in ["0", "1", "9", "10", "16", "99", "100", "199", "200", "249", "250", "255"] {
            self.exact(&cap(number));
        }
        for number in ["", "16", "17", "19", "20", "150", "00", "01", "015", "-1", " 1", "1 ", "x", "(not 1)"] {
            self.failing(&[&choice(number)]);
        }
        for number in ["", "16", "20", "01"] {
            self.failing(&[&value(number)]);
        }
        for number in ["", "256", "260", "300", "1000", "2550", "07", " 1", "1 "] {
            self.failing(&[&cap(number)]);
        }
        self.in_rooms(&choice("7"));
        self.in_rooms(&cap("7"));
        self.failing(&[
            "Jr.If(",
            "Jr.If(1",
            "Jr.If(1)",
            "Jr.If(1, ",
            "Jr.If(1, Jr.Stop())",
            "Jr.If(1,Jr.Stop(), Jr.Stop())",
            "Jr.If(1, Jr.Stop(),Jr.Stop())",
            "Jr.If(1, Jr.Stop(), Jr.Stop()",
            "Jr.If(1, Jr.Stop(), Jr.Stop(), Jr.Stop())",
            "Jr.If(1, 2, Jr.Stop())",
            "Jr.If(Jr.Stop(), Jr.Stop(), 1)",
            "Jr.RepeatExt(",
            "Jr.RepeatExt(1, Jr.Stop())",
            "Jr.RepeatExt(1, 2)",
            "Jr.RepeatExt(1, 2, Jr.Stop()",
            "Jr.RepeatExt(1,2, Jr.Stop())",
            "Jr.RepeatExt(1, 2,Jr.Stop())",
            "Jr.RepeatExt(1, 2, 3, Jr.Stop())",
            "Jr.RepeatExt(1, 2, Jr.Stop(), Jr.Stop())",
            "Jr.RepeatExt(Jr.Stop(), 1, 2)",
            "Jr.RepeatExt (1, 2, Jr.Stop())",
            "Jr.Repeat(1, 2, Jr.Stop())",
            "Jr.RepeatE",
        ]);
        for text in [
            "Jr.If(15, Jr.Nothing(), Jr.Nothing())",
            "Jr.If(3, Jr.Await((not 4)), Jr.If(2, Jr.Await(1), Jr.Generate(0)))",
            "Jr.Seq(Jr.If(9, Jr.Await(3), Jr.Await(2)), Jr.When(1, Jr.RepeatExt(8, 200, Jr.Await(0)), Jr.Stop()))",
            "Jr.RepeatExt(0, 2, Jr.RepeatExt(15, 255, Jr.Seq(Jr.Await(1), Jr.Atom(65), Jr.Stop())))",
            "Jr.Loop(Jr.If(0, Jr.Stop(), Jr.Stop()))",
            "Jr.Loop(Jr.If(0, Jr.Stop(), Jr.Nothing()))",
            "Jr.Loop(Jr.RepeatExt(0, 1, Jr.Stop()))",
            "Jr.RepeatExt(0, 255, Jr.RepeatExt(0, 17, Jr.Generate(0)))",
            "Jr.RepeatExt(0, 0, Jr.Repeat(65535, Jr.Repeat(65535, Jr.Stop())))",
        ] {
            self.exact(text);
        }
    }

    // L8: an event and a body, in this order; V counts the event.
    fn frozen(&mut self) {
        self.failing(&[
            "Jr.Freezable(",
            "Jr.Freezable()",
            "Jr.Freezable(1",
            "Jr.Freezable(1)",
            "Jr.Freezable(1, ",
            "Jr.Freezable(1,Jr.Stop())",
            "Jr.Freezable(1, Jr.Stop()",
            "Jr.Freezable(1, Jr.Stop(), Jr.Stop())",
            "Jr.Freezable(1, 2, Jr.Stop())",
            "Jr.Freezable(Jr.Stop())",
            "Jr.Freezable(Jr.Stop(), 1)",
            "Jr.Freezable((not 1), Jr.Stop())",
            "Jr.Freezable (1, Jr.Stop())",
        ]);
        self.in_rooms("Jr.Freezable(1, Jr.Stop())");
        for text in [
            "Jr.Freezable(9, Jr.Freezable(8, Jr.Await(3)))",
            "Jr.Local(2, Jr.Freezable(2, Jr.Seq(Jr.Generate(2), Jr.Await((not 1)), Jr.Stop())))",
            "Jr.Loop(Jr.Freezable(0, Jr.Stop()))",
            "Jr.Repeat(2048, Jr.Freezable(0, Jr.Stop()))",
            "Jr.Repeat(2049, Jr.Freezable(0, Jr.Stop()))",
        ] {
            self.exact(text);
        }
    }

    // A blank, and other bytes like it, at each place of a text.
    fn blanks(&mut self) {
        for place in 0..=SAMPLE.len() {
            let (before, after) = SAMPLE.split_at(place);
            self.failing(&[&format!("{before} {after}")]);
        }
        self.failing(&[
            "Jr.Seq(Jr.Stop(),Jr.Stop())",
            "Jr.Seq(Jr.Stop(),\tJr.Stop())",
            "Jr.Seq(Jr.Stop(),\nJr.Stop())",
            "Jr.Seq(Jr.Stop(), Jr.Stop(),Jr.Stop())",
            "Jr.Repeat(1,Jr.Stop())",
            "Jr.When(1,Jr.Stop(), Jr.Stop())",
            "Jr.When(1, Jr.Stop(),Jr.Stop())",
            "Jr.Await((not(1)))",
            "Jr.Await((not1))",
            "Jr.Await((1and 2))",
            "Jr.Await((1 and2))",
            "Jr.Await((1\tand 2))",
            "Jr.Await((1 or2))",
        ]);
    }

    // Brackets of configurations, and too few or too many parts (F5).
    fn brackets_and_parts(&mut self) {
        self.failing(&[
            "Jr.Await(not 1)",
            "Jr.Await(1 and 2)",
            "Jr.Await((1))",
            "Jr.Await(())",
            "Jr.Await()",
            "Jr.Await((1 and 2 and 3))",
            "Jr.Await((1 and 2 or 3))",
            "Jr.Await((1 not 2))",
            "Jr.Await((not 1 and 2))",
            "Jr.Await((not not 1))",
            "Jr.Await((1 And 2))",
            "Jr.Await((1 xor 2))",
            "Jr.Await((1 an 2))",
            "Jr.Await((no 1))",
            "Jr.Await((not (not 1))",
            "Jr.Await(1, 2)",
            "Jr.Await(Jr.Stop())",
            "Jr.Generate((not 1))",
            "Jr.Generate((1))",
            "Jr.Control((1 or 2), Jr.Stop())",
            "Jr.Seq()",
            "Jr.Seq(Jr.Stop())",
            "Jr.Par(Jr.Stop())",
            "Jr.Seq(Jr.Stop(), )",
            "Jr.Seq(, Jr.Stop())",
            "Jr.Seq(Jr.Stop(), , Jr.Stop())",
            "Jr.Seq(Jr.Stop(), Jr.Stop(), )",
            "Jr.Par(Jr.Stop(), Jr.Seq(Jr.Stop()), Jr.Stop())",
            "Jr.Seq(1, Jr.Stop())",
            "Jr.Loop()",
            "Jr.Loop(Jr.Stop(), Jr.Stop())",
            "Jr.Repeat(1)",
            "Jr.Repeat(Jr.Stop())",
            "Jr.Repeat(1, Jr.Stop(), Jr.Stop())",
            "Jr.When(1, Jr.Stop())",
            "Jr.When(1, Jr.Stop(), Jr.Stop(), Jr.Stop())",
            "Jr.Until(Jr.Stop(), 1, Jr.Stop())",
            "Jr.Until(1, Jr.Stop())",
            "Jr.Control(1)",
            "Jr.Local(Jr.Stop(), 1)",
            "Jr.Nothing(0)",
            "Jr.Stop(Jr.Stop())",
            "Jr.Stop[]",
            "(Jr.Stop())",
        ]);
    }

    // Beginnings of a text end early; whatever follows a whole text fails there (F4).
    fn ends(&mut self) {
        for length in (0..SAMPLE.len()).step_by(3) {
            self.failing(&[&SAMPLE[..length]]);
        }
        for more in ["\n", " ", "\0", ")", ", Jr.Stop()", "0", "Jr.Stop()"] {
            self.failing(&[&format!("Jr.Stop(){more}"), &format!("{SAMPLE}{more}")]);
        }
    }

    // Seq and Par with several parts nest to the right, in any place of one another.
    fn several_parts(&mut self) {
        for name in ["Seq", "Par"] {
            let other = if name == "Seq" { "Par" } else { "Seq" };
            let parts = |count: usize| (0..count).map(|k| format!("Jr.Atom({k})")).collect::<Vec<_>>();
            for count in [2, 3, 4, 5, 63, 64] {
                self.exact(&form(name, &parts(count)));
            }
            self.in_rooms(&form(name, &parts(3)));
            for inner in [form(name, &parts(3)), form(other, &parts(3))] {
                for place in 0..3 {
                    let mut outer = parts(3);
                    outer[place] = inner.clone();
                    self.exact(&form(name, &outer));
                }
            }
            self.exact(&form(name, &[form(name, &parts(2)), form(name, &parts(2))]));
            let tests: Vec<String> = (0..5).map(|k| format!("Jr.Await((not {}))", 9 - k)).collect();
            self.exact(&form(name, &tests));
        }
        self.exact("Jr.Loop(Jr.Par(Jr.Await(0), Jr.Seq(Jr.Stop(), Jr.Stop(), Jr.Atom(1)), Jr.Generate(2)))");
    }

    // V by whatever names the highest event (F6); configurations in text order, one for each test (F7).
    fn events_and_configurations(&mut self) {
        for place in 0..4 {
            for high in ["9", "255", "1023"] {
                let mut numbers = ["3", "2", "4", "1"];
                numbers[place] = high;
                let [g, a, c, l] = numbers;
                self.exact(&format!(
                    "Jr.Par(Jr.Generate({g}), Jr.Await({a}), Jr.Control({c}, Jr.Local({l}, Jr.Atom(300))))"
                ));
            }
        }
        for text in [
            "Jr.Atom(65535)",
            "Jr.Repeat(200, Jr.Stop())",
            "Jr.Par(Jr.Await(1), Jr.Await(1))",
            "Jr.When(5, Jr.When(4, Jr.Await(3), Jr.Await(2)), Jr.Until(1, Jr.Stop(), Jr.Await(0)))",
            "Jr.Until((1 and (2 or 3)), Jr.When((not 4), Jr.Stop(), Jr.Await((5 or 6))), Jr.Await((1 and (2 or 3))))",
            "Jr.Await(((0 and 1) or (2 and 3)))",
            "Jr.Await((((0 and 1) or 2) and 3))",
            "Jr.Await((0 and (1 or (2 and 3))))",
            "Jr.Await((not (not (not 7))))",
        ] {
            self.exact(text);
        }
    }

    // 21, then 22, then 1 to 8 on the table; the lowest index of each.
    fn refused_tables(&mut self) {
        let tall = format!("Jr.Await({})", deep(16, "(not ", "0", ")"));
        let low = deep(64, "Jr.Control(0, ", "Jr.Nothing()", ")");
        let endless = "Jr.Loop(Jr.Await(0))";
        let heavy = "Jr.Repeat(4095, Jr.Generate(0))";
        for text in [&tall, &low, endless, heavy] {
            self.in_rooms(text);
            self.failing(&[&format!("{text} ")]);
        }
        for text in [
            "Jr.Seq(Jr.Stop(), Jr.Stop(), Jr.Loop(Jr.Loop(Jr.Nothing())))",
            "Jr.Repeat(4094, Jr.Generate(0))",
            "Jr.Repeat(4096, Jr.Atom(0))",
            "Jr.Repeat(4097, Jr.Atom(0))",
            "Jr.Repeat(65534, Jr.Nothing())",
            "Jr.Repeat(65535, Jr.Nothing())",
            "Jr.Repeat(0, Jr.Repeat(65535, Jr.Repeat(65535, Jr.Generate(0))))",
        ] {
            self.exact(text);
        }
        // Several faults: the lowest number, wherever they stand.
        let faults = [heavy, endless, &low, &tall].map(str::to_string);
        for count in 2..=4 {
            self.exact(&form("Par", &faults[..count]));
        }
    }

    // Depths 64 and 65, heights 16 and 17, and as deep as a text holds (F2, F3).
    fn depth_and_height(&mut self) {
        for (open, close) in DEEPER {
            // A third part makes a bracket two levels deep.
            for times in if open.contains("Generate") { [31, 32] } else { [63, 64] } {
                self.exact(&deep(times, open, "Jr.Stop()", close));
            }
        }
        for (open, close) in HIGHER {
            for times in [15, 16] {
                self.exact(&format!("Jr.Par(Jr.Await(0), Jr.Await({}))", deep(times, open, "3", close)));
            }
        }
        let (open, close) = DEEPER[0];
        let text = deep(deepest(open, "Jr.Stop()", close), open, "Jr.Stop()", close);
        self.exact(&text);
        self.read(&text, needed(&text) - 1);
        let (open, close) = HIGHER[1];
        let text = format!("Jr.Await({})", deep(deepest(open, "Jr.Await(5)", close), open, "5", close));
        self.read(&text, 16);
        self.failing(&[&text[..text.len() - 1]]);
        // Only ever deeper.
        self.failing(&["Jr.Seq(".repeat(4_714).as_str(), &format!("Jr.Await({}", "(".repeat(32_991))]);
    }

    // N 4,096 and 4,097 (F9), M 2,048 and 2,049.
    fn many_records(&mut self) {
        for count in [4_096, 4_097] {
            self.exact(&broad("Par", nodes(count)));
        }
        self.read(broad("Seq", nodes(4_097)), needed(&broad("Seq", nodes(4_097))) - 1);
        self.exact(&format!("Jr.Await({})", bush(2_048)));
        self.in_rooms(&format!("Jr.Await({})", bush(2_049)));
        // Refusal 2 before 4, and 4 before 6 and 7.
        self.exact(&format!("Jr.Await({})", deep(2_048, "(not ", "0", ")")));
        self.exact(&format!("Jr.Await({})", deep(2_047, "(not ", "0", ")")));
        self.exact(&deep(400, "Jr.Loop(", &format!("Jr.Await({})", deep(16, "(not ", "0", ")")), ")"));
    }

    // 32,778 bytes fit and one record more doesn't, whatever the room.
    fn longest_tables(&mut self) {
        let with_configs = |count: usize, records: usize| {
            let mut parts = nodes(count);
            let last = parts.len() - 1;
            parts[last] = format!("Jr.Await({})", bush(records));
            broad("Par", parts)
        };
        for room in [32_778, 32_777] {
            self.read(with_configs(4_096, 2_048), room);
        }
        for (count, records) in [(5_460, 2), (5_461, 1)] {
            self.read(with_configs(count, records), 33_000);
        }
        self.failing(&[&format!("{}\n", broad("Par", nodes(5_500)))]);
    }

    // Rooms and texts at the limits of a line, and lines that are no calls.
    fn odd_lines(&mut self) {
        let zeros = "00".repeat(33_001);
        for (one, other) in [(33_000, 0), (33_001, 0), (0, 33_001)] {
            for word in ["read", "print"] {
                let bytes = |count: usize| if count == 0 { "-" } else { &zeros[..2 * count] };
                self.0.push(format!("{word} {} {}", bytes(one), bytes(other)));
            }
        }
        for line in
            ["read", "read -", "read - ", "read - - -", "read  - -", "Read - -", "print", "print -", "print - - -"]
        {
            self.0.push(line.to_string());
        }
        for line in ["read 4A -", "read 4 -", "read - 0", "print - 0g", "print -- -", "read Jr.Stop() -", "prints - -"]
        {
            self.0.push(line.to_string());
        }
    }
}
