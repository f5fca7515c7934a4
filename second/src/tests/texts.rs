//! The written form: document 01, the translations of 000 and 001, and the readings taken.

use super::*;
use crate::make::draft::short::*;
use crate::text;

/// Reads a text into a room that holds any table.
fn read(text: &str) -> Result<Vec<u8>, Refusal> {
    let mut room = vec![0xee; 33_000];
    let length = text::read(text.as_bytes(), &mut room)?;
    room.truncate(length);
    Ok(room)
}

/// Prints a table into a room that holds its text.
fn print(table: &[u8]) -> Result<String, Refusal> {
    let mut room = vec![0xee; 33_000];
    let length = text::print(table, &mut room)?;
    room.truncate(length);
    Ok(String::from_utf8(room).expect("a text"))
}

/// A text that fails at this offset.
fn fails(text: &str, offset: usize) {
    assert_eq!(read(text), refused(21, offset), "{text:?}");
}

/// A text that reads as this program over V events, and is what the program prints as.
fn reads(text: &str, events: u16, program: Draft) {
    let table = Records::new(events, &program).bytes();
    assert_eq!(read(text), Ok(table.clone()), "{text}");
    assert_eq!(print(&table), Ok(text.to_string()));
}

/// A text of so many brackets round a core.
fn deep(times: usize, open: &str, core: &str, close: &str) -> String {
    open.repeat(times) + core + &close.repeat(times)
}

// 000, 2.2: each constructor by its translation.
#[test]
fn each_form() {
    reads("Jr.Nothing()", 1, nothing());
    reads("Jr.Stop()", 1, stop());
    reads("Jr.Atom(7)", 1, atom(7));
    reads("Jr.Seq(Jr.Nothing(), Jr.Stop())", 1, seq(nothing(), stop()));
    reads("Jr.Par(Jr.Stop(), Jr.Atom(3))", 1, par(stop(), atom(3)));
    reads("Jr.Loop(Jr.Stop())", 1, forever(stop()));
    reads("Jr.Repeat(3, Jr.Atom(4))", 1, repeat(3, atom(4)));
    reads("Jr.Generate(1)", 2, generate(1));
    reads("Jr.Await(3)", 4, wait(event(3)));
    reads("Jr.When(1, Jr.Atom(1), Jr.Atom(2))", 2, when(event(1), atom(1), atom(2)));
    reads("Jr.Until((not 0), Jr.Stop(), Jr.Atom(5))", 1, until(not(event(0)), stop(), atom(5)));
    reads("Jr.Control(0, Jr.Generate(1))", 2, control(0, generate(1)));
    reads("Jr.Local(0, Jr.Par(Jr.Await(0), Jr.Generate(0)))", 1, local(0, par(wait(event(0)), generate(0))));
}

// P of 01, and the bytes of K1.
#[test]
fn worked_examples() {
    let p = "Jr.Par(Jr.Seq(Jr.Await(0), Jr.Seq(Jr.Atom(7), Jr.Generate(1))), Jr.Await(1))";
    reads(p, 2, par(seq(wait(event(0)), seq(atom(7), generate(1))), wait(event(1))));
    assert_eq!(read("Jr.Nothing()"), Ok(vec![0, 0, 0, 0, 0, 1, 0, 1, 0, 0, 0, 1, 0, 6, 0, 0]));
    assert_eq!(read("Jr.Loop(Jr.Await(0))"), refused(7, 0));
}

// 001: several parts nest to the right; printed, there are two.
#[test]
fn several_parts() {
    let four = seq(atom(1), seq(atom(2), seq(atom(3), atom(4))));
    let table = Records::new(1, &four).bytes();
    assert_eq!(read("Jr.Seq(Jr.Atom(1), Jr.Atom(2), Jr.Atom(3), Jr.Atom(4))"), Ok(table.clone()));
    assert_eq!(read("Jr.Seq(Jr.Atom(1), Jr.Atom(2), Jr.Seq(Jr.Atom(3), Jr.Atom(4)))"), Ok(table.clone()));
    assert_eq!(print(&table).as_deref(), Ok("Jr.Seq(Jr.Atom(1), Jr.Seq(Jr.Atom(2), Jr.Seq(Jr.Atom(3), Jr.Atom(4))))"));
    reads("Jr.Seq(Jr.Seq(Jr.Atom(1), Jr.Atom(2)), Jr.Atom(3))", 1, seq(seq(atom(1), atom(2)), atom(3)));
    let mixed = par(seq(atom(1), seq(atom(2), atom(3))), par(par(atom(4), atom(5)), seq(atom(6), atom(7))));
    let text = "Jr.Par(Jr.Seq(Jr.Atom(1), Jr.Atom(2), Jr.Atom(3)), Jr.Par(Jr.Atom(4), Jr.Atom(5)), \
                Jr.Seq(Jr.Atom(6), Jr.Atom(7)))";
    assert_eq!(read(text), Ok(Records::new(1, &mixed).bytes()));
    let tests = par(wait(event(2)), par(wait(not(event(1))), wait(event(0))));
    assert_eq!(read("Jr.Par(Jr.Await(2), Jr.Await((not 1)), Jr.Await(0))"), Ok(Records::new(3, &tests).bytes()));
}

// F1: the length of the longest beginning that some text of the form has.
#[test]
fn f1_offsets() {
    fails("Jr.Await(1024)", 12);
    fails("Jr.Await(01)", 10);
    fails("Jr.Atom(65536)", 12);
    fails("Jr.Lop", 5);
    fails("Jr.Lo", 5);
    fails("jr.Stop()", 0);
    fails("Jr.X", 3);
    fails("Jr.Stops()", 7);
    fails("Jr.Await(-1)", 9);
    fails("Jr.Await(2560)", 12);
    fails("Jr.Await(1030)", 12);
    fails("Jr.Await(10000)", 13);
    fails("Jr.Atom(655350)", 13);
    fails("Jr.Atom(70000)", 12);
    fails("Jr.Atom(00)", 9);
    fails("Jr.Repeat(65536, Jr.Stop())", 14);
    fails("Jr.Control(1024, Jr.Stop())", 14);
    fails("Jr.Await((1 and 1024))", 19);
    fails("Jr.Await((1 xor 2))", 12);
    fails("Jr.Await((1 and 2 and 3))", 17);
    fails("Jr.Await((1))", 11);
    fails("Jr.Await((no 1))", 12);
}

// Numbers at their limits.
#[test]
fn limits_of_numbers() {
    reads("Jr.Await(255)", 256, wait(event(255)));
    reads("Jr.Await(1023)", 1_024, wait(event(1_023)));
    reads("Jr.Generate(1023)", 1_024, generate(1_023));
    reads("Jr.Atom(0)", 1, atom(0));
    reads("Jr.Atom(65535)", 1, atom(65_535));
    reads("Jr.Repeat(65535, Jr.Stop())", 1, repeat(65_535, stop()));
    reads("Jr.Repeat(0, Jr.Stop())", 1, repeat(0, stop()));
    for (text, offset) in [("Jr.Generate(1024)", 15), ("Jr.Local(1024, Jr.Stop())", 12), ("Jr.Await((not 1024))", 17)] {
        fails(text, offset);
    }
}

// F3: 21 before 22, 22 before 1 to 8, also where the room is none.
#[test]
fn f3_order_of_refusals() {
    let mut none = [];
    assert_eq!(text::read(b"Jr.Loop(Jr.Await(0)) ", &mut none), refused(21, 20));
    assert_eq!(text::read(b"Jr.Loop(Jr.Await(0))", &mut none), refused(22, 0));
    assert_eq!(text::read(b"Jr.Loop(Jr.Await(0))", &mut [0; 25]), refused(22, 0));
    assert_eq!(text::read(b"Jr.Loop(Jr.Await(0))", &mut [0; 26]), refused(7, 0));
}

// F4: anything after a whole reading fails there; the empty text fails at 0.
#[test]
fn f4_ends() {
    fails("", 0);
    for more in ["\n", " ", "\0", ")", "Jr.Stop()", ", Jr.Stop()"] {
        fails(&format!("Jr.Stop(){more}"), 9);
    }
    let text = "Jr.When((1 and (not 2)), Jr.Seq(Jr.Stop(), Jr.Stop(), Jr.Stop()), Jr.Repeat(12, Jr.Atom(345)))";
    assert!(read(text).is_ok());
    for length in 0..text.len() {
        fails(&text[..length], length);
    }
}

// F5: one part is too few, at its bracket.
#[test]
fn f5_one_part() {
    fails("Jr.Seq(Jr.Stop())", 16);
    fails("Jr.Par(Jr.Nothing())", 19);
    fails("Jr.Seq()", 7);
    fails("Jr.Par(Jr.Stop(), Jr.Seq(Jr.Stop()), Jr.Stop())", 34);
    fails("Jr.When(1, Jr.Stop())", 20);
    fails("Jr.Loop(Jr.Stop(), Jr.Stop())", 17);
}

// One space after each comma, after `not` and round `and` and `or`; no other blank.
#[test]
fn blanks() {
    fails("Jr.Seq(Jr.Stop(),Jr.Stop())", 17);
    fails("Jr.Seq(Jr.Stop(),  Jr.Stop())", 18);
    fails("Jr.Seq(Jr.Stop() , Jr.Stop())", 16);
    fails("Jr.Seq(Jr.Stop(), Jr.Stop(),Jr.Stop())", 28);
    fails("Jr.Seq(Jr.Stop(), , Jr.Stop())", 18);
    fails("Jr.Seq( Jr.Stop(), Jr.Stop())", 7);
    fails("Jr.Stop( )", 8);
    fails(" Jr.Stop()", 0);
    fails("Jr.Repeat(1,Jr.Stop())", 12);
    fails("Jr.Await((not(1)))", 13);
    fails("Jr.Await((not  1))", 14);
    fails("Jr.Await((1and 2))", 11);
    fails("Jr.Await((1 and2))", 15);
    fails("Jr.Await((1  and 2))", 12);
    fails("Jr.Await((1 or  2))", 15);
    fails("Jr.Await(not 1)", 9);
}

// F6: V is one above the highest event named anywhere, at least 1; printing and reading may lower it.
#[test]
fn f6_events() {
    let v = |text: &str| read(text).map(|table| table[table.len() - 6..table.len() - 4].to_vec());
    assert_eq!(v("Jr.Atom(999)"), Ok(vec![0, 1]));
    assert_eq!(v("Jr.Repeat(200, Jr.Await(0))"), Ok(vec![0, 1]));
    for text in ["Jr.Generate(9)", "Jr.Await((1 or 9))", "Jr.Control(9, Jr.Await(3))", "Jr.Local(9, Jr.Generate(4))"] {
        assert_eq!(v(text), Ok(vec![0, 10]), "{text}");
    }
    assert_eq!(v("Jr.Local(255, Jr.Generate(4))"), Ok(vec![1, 0]));
    let wide = Records::new(256, &generate(3)).bytes();
    assert_eq!(read(&print(&wide).expect("accepted")), Ok(Records::new(4, &generate(3)).bytes()));
}

// F6, F7: shared configurations are copied, in the order of the tests; unused ones vanish.
#[test]
fn f7_configurations() {
    let test = || and(event(1), not(event(2)));
    let program = when(test(), wait(not(event(2))), until(test(), stop(), wait(event(0))));
    let mut shared = Records::sharing(3, &program);
    shared.put_cond(&or(event(0), event(1)));
    let text = print(&shared.bytes()).expect("accepted");
    assert_eq!(text, "Jr.When((1 and (not 2)), Jr.Await((not 2)), Jr.Until((1 and (not 2)), Jr.Stop(), Jr.Await(0)))");
    let own = Records::new(3, &program);
    assert_eq!(own.configs.len(), 11);
    assert_eq!(read(&text), Ok(own.bytes()));
}

// F8: how configurations are written.
#[test]
fn f8_configurations() {
    reads("Jr.Await((not 3))", 4, wait(not(event(3))));
    let test = and(event(1), not(event(2)));
    reads("Jr.When((1 and (not 2)), Jr.Nothing(), Jr.Stop())", 3, when(test, nothing(), stop()));
    reads("Jr.Await(((0 or 1) and (not (2 or 3))))", 4, wait(and(or(event(0), event(1)), not(or(event(2), event(3))))));
}

// F9: 4,097 nodes with few configurations are 2, not 22; likewise 2,049 configurations.
#[test]
fn f9_many_nodes() {
    let parts = |count: usize| vec!["Jr.Stop()"; count].join(", ");
    let text = |count: usize| format!("Jr.Par({})", parts(count));
    assert_eq!(read(&text(2_048)), refused(6, 127));
    assert_eq!(read(&text(2_049)), refused(2, 0));
    // 5,461 nodes are 32,776 bytes; one configuration more is too long for any room.
    assert_eq!(read(&text(2_731)), refused(2, 0));
    assert_eq!(read(&text(2_732)), refused(22, 0));
    let await_last = |count: usize| format!("Jr.Par({}, Jr.Await(0))", parts(count - 1));
    assert_eq!(read(&await_last(2_730)), refused(2, 0));
    assert_eq!(read(&await_last(2_731)), refused(22, 0));
    let tower = |times: usize| format!("Jr.Await({})", deep(times, "(not ", "0", ")"));
    assert_eq!(read(&tower(2_047)), refused(4, 0));
    assert_eq!(read(&tower(2_048)), refused(2, 0));
}

// F2: depth and height are the table's limits, not the text's, which may nest as deep as it likes.
#[test]
fn f2_any_depth() {
    let controls = |times: usize| deep(times, "Jr.Control(0, ", "Jr.Nothing()", ")");
    assert!(read(&controls(63)).is_ok());
    assert_eq!(read(&controls(64)), refused(6, 64));
    let tower = |times: usize| format!("Jr.Await({})", deep(times, "(not ", "0", ")"));
    assert!(read(&tower(15)).is_ok());
    assert_eq!(read(&tower(16)), refused(4, 0));
    assert_eq!(read(&deep(100_000, "Jr.Loop(", "Jr.Stop()", ")")), refused(22, 0));
    assert_eq!(read(&deep(100_000, "(", "0", ")")), refused(21, 0));
    assert_eq!(read(&format!("Jr.Await({}", deep(100_000, "(", "0", " or 1)"))), refused(21, 700_010));
    assert_eq!(read(&"Jr.Seq(".repeat(100_000)), refused(21, 700_000));
}

// A room that is exact, long and short; a refusal leaves it as it was.
#[test]
fn rooms_for_a_table() {
    let text = b"Jr.Await(0)";
    let table = Records::new(1, &wait(event(0))).bytes();
    let mut room = [7; 23];
    assert_eq!(text::read(text, &mut room), Ok(20));
    assert_eq!(room[..20], table);
    assert_eq!(room[20..], [7; 3]);
    let mut room = [7; 20];
    assert_eq!(text::read(text, &mut room), Ok(20));
    let mut room = [7; 19];
    assert_eq!(text::read(text, &mut room), refused(22, 0));
    assert_eq!(room, [7; 19]);
}

// Printing: 1 to 8, then 24 with index 0 (F10).
#[test]
fn rooms_for_a_text() {
    let table = Records::new(1, &stop()).bytes();
    let mut room = *b"############";
    assert_eq!(text::print(&table, &mut room), Ok(9));
    assert_eq!(&room, b"Jr.Stop()###");
    let mut room = *b"#########";
    assert_eq!(text::print(&table, &mut room), Ok(9));
    let mut room = *b"########";
    assert_eq!(text::print(&table, &mut room), refused(24, 0));
    assert_eq!(&room, b"########");
    let mut none = [];
    assert_eq!(text::print(&table[1..], &mut none), refused(1, 0));
    assert_eq!(text::print(&Records::new(1, &forever(nothing())).bytes(), &mut none), refused(7, 0));
    assert_eq!(text::print(&Records::new(1, &repeat(4_097, atom(0))).bytes(), &mut none), refused(8, 0));
}

// Copies of a shared configuration may bring 2 or 22.
#[test]
fn copies_too_many() {
    fn full(height: usize) -> crate::make::draft::Cond {
        if height == 1 {
            event(0)
        } else {
            or(full(height - 1), full(height - 1))
        }
    }
    let program = |tests: usize| (1..tests).fold(wait(full(7)), |inner, _| par(wait(full(7)), inner));
    let table = |tests| Records::sharing(1, &program(tests)).bytes();
    // 127 records each: 16 tests have 2,032 of them, 17 too many.
    let again = |tests| read(&print(&table(tests)).expect("accepted"));
    assert_eq!(again(16), Ok(Records::new(1, &program(16)).bytes()));
    assert_eq!(again(17), refused(2, 0));
    // 63 tests make 32,004 + 750 + 10 bytes.
    assert_eq!(again(63), refused(2, 0));
    assert_eq!(again(64), refused(22, 0));
}
