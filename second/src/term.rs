//! Terms: the abstract syntax of 000, 2.1, each term marked with the node it stands for.

use crate::config::Config;
use std::rc::Rc;

/// Termination flags (000, 2.3).
#[derive(Clone, Copy, Debug, PartialEq, Eq)]
pub enum Flag {
    Susp,
    Stop,
    Term,
}

/// A term and the node whose record it was made from. A residual keeps its mark, so that
/// it can be told which node has been rewritten into which part of itself.
#[derive(Clone, Debug, PartialEq)]
pub struct Term {
    pub at: usize,
    pub form: Rc<Form>,
}

#[derive(Debug, PartialEq)]
pub enum Form {
    /// Nothing as the program writes it.
    Nothing,
    /// Nothing as a conclusion leaves it in place of another form.
    Gone,
    Stop,
    Atom(u16),
    Seq(Term, Term),
    Par(Flag, Flag, Term, Term),
    Loop(Term),
    Repeat(u16, Term),
    /// The number of a value, the cap, the body (L14).
    RepeatExt(u8, u8, Term),
    Generate(u16),
    Await(Rc<Config>),
    When(Rc<Config>, Term, Term),
    /// The number of a value, the two branches (L14).
    If(u8, Term, Term),
    Until(Rc<Config>, Term, Term),
    UntilStar(Rc<Config>, Term, Term),
    Control(u16, Term),
    LocalMinus(u16, Term),
    LocalPlus(u16, Term),
    Freezable(u16, Term),
    FreezableStar(u16, Term),
}

impl Term {
    pub fn new(at: usize, form: Form) -> Term {
        Term { at, form: Rc::new(form) }
    }

    /// The term rewritten into another form of the same node.
    pub fn becomes(&self, form: Form) -> Term {
        Term::new(self.at, form)
    }
}
