//! The rewriting rules of 000, each with its number beside it, with what 01 settles:
//! Par with two suspended branches merges (rule 8, or rule 9 where L6 asks for it), Control keeps its body's environment,
//! Until* that is false stops at any time, and a node that answers TERM leaves Nothing. If and RepeatExt have no
//! number in 000; their rules are those of 001 (L14). What rules 42 and 43 freeze is handed on to the store (L8).

use crate::config::Config;
use crate::env::{Env, Values};
use crate::term::{Flag, Form, Term};
use std::rc::Rc;

/// What the passes of an instant meet and leave beside the environment.
pub struct Course<'a> {
    /// What the box has handed in for If and RepeatExt.
    pub values: Values,
    /// The actions that atoms have executed, in order.
    pub actions: Vec<u16>,
    /// What has been frozen, in order (L8): the table of frozen instructions of 000, 2.4, as a list.
    pub frozen: Vec<Frozen>,
    /// The tests that this pass has read and found unknown.
    pub unknown: Vec<Unknown>,
    /// Asked anew at each Par that has two suspended branches: true if the second one runs first.
    pub second_first: &'a mut dyn FnMut() -> bool,
}

/// A frozen instruction: its event, the node of the body that it is the rest of, and the rest itself.
pub struct Frozen {
    pub event: u16,
    pub body: usize,
    pub rest: Term,
}

/// A test found unknown: the node that suspends, what it tests, and the environment in which it was read (L1).
pub struct Unknown {
    pub at: usize,
    pub test: Rc<Config>,
    pub seen: Env,
}

impl Course<'_> {
    pub fn new(values: Values, second_first: &mut dyn FnMut() -> bool) -> Course<'_> {
        Course { values, actions: vec![], frozen: vec![], unknown: vec![], second_first }
    }

    /// eval of 001: the value of a number.
    fn value(&self, number: u8) -> u8 {
        self.values[usize::from(number)]
    }

    /// A node suspends as it is, since its test is unknown.
    fn suspend(&mut self, t: &Term, test: &Rc<Config>, e: Env) -> Conclusion {
        self.unknown.push(Unknown { at: t.at, test: test.clone(), seen: e });
        Says(Flag::Susp, t.clone(), e)
    }
}

/// What a rule concludes.
enum Conclusion {
    /// A flag, a residual and an environment.
    Says(Flag, Term, Env),
    /// What its last premise concludes, which runs this term in this environment.
    AsRunning(Term, Env),
}
use Conclusion::{AsRunning, Says};

/// Rewrites a term once: t, E -> t', E' with a flag.
pub fn run(t: &Term, e: Env, course: &mut Course) -> (Flag, Term, Env) {
    let mut next = step(t, e, course);
    loop {
        match next {
            AsRunning(u, e) => next = step(&u, e, course),
            Says(Flag::Term, _, e) => return (Flag::Term, t.becomes(Form::Gone), e),
            Says(flag, rest, e) => return (flag, rest, e),
        }
    }
}

/// Applies the one rule that fits the term and the environment.
fn step(t: &Term, e: Env, course: &mut Course) -> Conclusion {
    match &*t.form {
        Form::Nothing | Form::Gone => Says(Flag::Term, t.clone(), e), // (1)
        Form::Stop => Says(Flag::Stop, t.becomes(Form::Gone), e),     // (2)
        Form::Atom(a) => {
            course.actions.push(*a);
            Says(Flag::Term, t.becomes(Form::Gone), e) // (3)
        }
        Form::Seq(first, second) => seq(t, first, second, e, course),
        Form::Par(a, b, first, second) => par(t, (*a, *b), first, second, e, course),
        Form::Loop(body) => repeat_for_ever(t, body, e, course),
        Form::Repeat(n, body) => repeat(t, *n, body, e),
        Form::RepeatExt(number, cap, body) => repeat_ext(t, course.value(*number), *cap, body, e),
        Form::Generate(s) => {
            let e = Env { present: e.present.with(*s), moved: true, ..e };
            Says(Flag::Term, t.becomes(Form::Gone), e) // (16)
        }
        Form::Await(c) => wait(t, c, e, course),
        Form::When(c, then, other) => when(t, c, then, other, e, course),
        Form::If(number, then, other) => choose(course.value(*number), then, other, e),
        Form::Until(c, body, handler) => until(t, c, body, handler, e, course),
        Form::UntilStar(c, body, handler) => until_star(t, c, body, handler, e, course),
        Form::Control(s, body) => control(t, *s, body, e, course),
        Form::LocalMinus(s, body) => local_minus(t, *s, body, e, course),
        Form::LocalPlus(s, body) => local_plus(t, *s, body, e, course),
        Form::Freezable(s, body) => freezable(t, *s, body, e, course),
        Form::FreezableStar(s, body) => freezable_star(t, *s, body, e, course),
    }
}

fn seq(t: &Term, first: &Term, second: &Term, e: Env, course: &mut Course) -> Conclusion {
    match run(first, e, course) {
        (Flag::Term, _, e1) => AsRunning(second.clone(), e1), // (4)
        (a, rest, e1) => Says(a, t.becomes(Form::Seq(rest, second.clone())), e1), // (5)
    }
}

fn par(t: &Term, flags: (Flag, Flag), first: &Term, second: &Term, e: Env, course: &mut Course) -> Conclusion {
    let (a, first, b, second, e) = match flags {
        // (8), Merge: the first branch, then the second.
        (Flag::Susp, Flag::Susp) if !(course.second_first)() => {
            let (a, rest1, e1) = run(first, e, course);
            let (b, rest2, e2) = run(second, e1, course);
            (a, rest1, b, rest2, e2)
        }
        // (9), InvMerge: the second branch, then the first.
        (Flag::Susp, Flag::Susp) => {
            let (b, rest2, e1) = run(second, e, course);
            let (a, rest1, e2) = run(first, e1, course);
            (a, rest1, b, rest2, e2)
        }
        // (10): only the first branch is suspended.
        (Flag::Susp, b) => {
            let (a, rest, e1) = run(first, e, course);
            (a, rest, b, second.clone(), e1)
        }
        // (11): only the second branch is suspended.
        (a, Flag::Susp) => {
            let (b, rest, e1) = run(second, e, course);
            (a, first.clone(), b, rest, e1)
        }
        _ => unreachable!("no rule runs a Par without a suspended branch"),
    };
    Says(gamma(a, b), t.becomes(Form::Par(delta1(a, b), delta2(a, b), first, second)), e)
}

/// The joined flag (000, 2.4).
fn gamma(a: Flag, b: Flag) -> Flag {
    if a == Flag::Susp || b == Flag::Susp {
        Flag::Susp
    } else if a == Flag::Term && b == Flag::Term {
        Flag::Term
    } else {
        Flag::Stop
    }
}

/// The first branch's new flag (000, 2.4).
fn delta1(a: Flag, b: Flag) -> Flag {
    if a == Flag::Stop && (b == Flag::Stop || b == Flag::Term) {
        Flag::Susp
    } else {
        a
    }
}

/// The second branch's new flag (000, 2.4).
fn delta2(a: Flag, b: Flag) -> Flag {
    if b == Flag::Stop && (a == Flag::Stop || a == Flag::Term) {
        Flag::Susp
    } else {
        b
    }
}

fn repeat_for_ever(t: &Term, body: &Term, e: Env, course: &mut Course) -> Conclusion {
    match run(body, e, course) {
        (Flag::Term, _, e1) => AsRunning(t.clone(), e1), // (13), in E' as 001 prints it
        (a, rest, e1) => Says(a, t.becomes(Form::Seq(rest, t.clone())), e1), // (12)
    }
}

fn repeat(t: &Term, n: u16, body: &Term, e: Env) -> Conclusion {
    if n == 0 {
        return Says(Flag::Term, t.becomes(Form::Gone), e); // (14)
    }
    let fewer = t.becomes(Form::Repeat(n - 1, body.clone()));
    AsRunning(t.becomes(Form::Seq(body.clone(), fewer)), e) // (15)
}

/// Goes on as Repeat, so the value is read this once: the lesser of cap and value is how often.
fn repeat_ext(t: &Term, value: u8, cap: u8, body: &Term, e: Env) -> Conclusion {
    let times = u16::from(value.min(cap));
    AsRunning(t.becomes(Form::Repeat(times, body.clone())), e) // (001, RepeatExt)
}

fn choose(value: u8, then: &Term, other: &Term, e: Env) -> Conclusion {
    if value != 0 {
        AsRunning(then.clone(), e) // (001, If, true)
    } else {
        AsRunning(other.clone(), e) // (001, If, false)
    }
}

fn when(t: &Term, c: &Rc<Config>, then: &Term, other: &Term, e: Env, course: &mut Course) -> Conclusion {
    if c.sat(e) && !e.eoi {
        AsRunning(then.clone(), e) // (17)
    } else if c.sat(e) {
        Says(Flag::Stop, then.clone(), e) // (18)
    } else if c.unsat(e) && !e.eoi {
        AsRunning(other.clone(), e) // (19)
    } else if c.unsat(e) {
        Says(Flag::Stop, other.clone(), e) // (20)
    } else {
        course.suspend(t, c, e) // (21)
    }
}

fn wait(t: &Term, c: &Rc<Config>, e: Env, course: &mut Course) -> Conclusion {
    if c.sat(e) && !e.eoi {
        Says(Flag::Term, t.becomes(Form::Gone), e) // (22)
    } else if c.sat(e) {
        Says(Flag::Stop, t.becomes(Form::Gone), e) // (23)
    } else if c.unsat(e) {
        Says(Flag::Stop, t.clone(), e) // (24)
    } else {
        course.suspend(t, c, e) // (25)
    }
}

fn control(t: &Term, s: u16, body: &Term, e: Env, course: &mut Course) -> Conclusion {
    let event = Rc::new(Config::Event(s));
    if event.sat(e) {
        let (a, rest, e1) = run(body, e, course);
        Says(a, t.becomes(Form::Control(s, rest)), e1) // (26), keeping E' as 001 does
    } else if event.unsat(e) {
        Says(Flag::Stop, t.clone(), e) // (27)
    } else {
        course.suspend(t, &event, e) // (28)
    }
}

fn until(t: &Term, c: &Rc<Config>, body: &Term, handler: &Term, e: Env, course: &mut Course) -> Conclusion {
    let (a, rest, e1) = run(body, e, course);
    if a == Flag::Stop {
        let star = t.becomes(Form::UntilStar(c.clone(), rest, handler.clone()));
        AsRunning(star, e1) // (30)
    } else {
        Says(a, t.becomes(Form::Until(c.clone(), rest, handler.clone())), e1) // (29)
    }
}

fn until_star(t: &Term, c: &Rc<Config>, body: &Term, handler: &Term, e: Env, course: &mut Course) -> Conclusion {
    if c.sat(e) && !e.eoi {
        AsRunning(handler.clone(), e) // (31)
    } else if c.sat(e) {
        Says(Flag::Stop, handler.clone(), e) // (32)
    } else if c.unsat(e) {
        // (33), before the end too, as 001 has it
        Says(Flag::Stop, t.becomes(Form::Until(c.clone(), body.clone(), handler.clone())), e)
    } else {
        course.suspend(t, c, e) // (34)
    }
}

fn local_minus(t: &Term, s: u16, body: &Term, e: Env, course: &mut Course) -> Conclusion {
    let inside = Env { present: e.present.without(s), ..e };
    let (a, rest, e1) = run(body, inside, course);
    let form = if a == Flag::Susp && e1.present.has(s) {
        Form::LocalPlus(s, rest) // (36)
    } else {
        Form::LocalMinus(s, rest) // (35), (38)
    };
    Says(a, t.becomes(form), Env { present: e1.present.as_in(e.present, s), ..e1 })
}

fn local_plus(t: &Term, s: u16, body: &Term, e: Env, course: &mut Course) -> Conclusion {
    let inside = Env { present: e.present.with(s), ..e };
    let (a, rest, e1) = run(body, inside, course);
    let form = if a == Flag::Susp {
        Form::LocalPlus(s, rest) // (37)
    } else {
        Form::LocalMinus(s, rest) // (39)
    };
    Says(a, t.becomes(form), Env { present: e1.present.as_in(e.present, s), ..e1 })
}

fn freezable(t: &Term, s: u16, body: &Term, e: Env, course: &mut Course) -> Conclusion {
    let (a, rest, e1) = run(body, e, course);
    if a == Flag::Stop {
        AsRunning(t.becomes(Form::FreezableStar(s, rest)), e1) // (41)
    } else {
        Says(a, t.becomes(Form::Freezable(s, rest)), e1) // (40)
    }
}

fn freezable_star(t: &Term, s: u16, body: &Term, e: Env, course: &mut Course) -> Conclusion {
    if e.present.has(s) {
        // The body is the record behind the Freezable's own.
        course.frozen.push(Frozen { event: s, body: t.at + 1, rest: body.clone() });
        let flag = if e.eoi { Flag::Stop } else { Flag::Term };
        Says(flag, t.becomes(Form::Gone), e) // (42), and (43) once the end is declared
    } else if e.eoi {
        Says(Flag::Stop, t.becomes(Form::Freezable(s, body.clone())), e) // (44)
    } else {
        course.suspend(t, &Rc::new(Config::Event(s)), e) // (45)
    }
}
