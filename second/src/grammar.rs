//! The written form of 01 as a grammar: what may stand at each place, and which pieces are made of it.
//! What two choices have in common stands before the choice, so that no part is read in two ways at once.

use Name::*;
use Piece::*;
use Symbol::*;

/// What a text is made of. A piece comes after its parts, which are the pieces made last before it.
#[derive(Clone, Copy, Debug, PartialEq, Eq)]
pub enum Piece {
    Number(u16),
    // Configurations.
    Event,
    Not,
    And,
    Or,
    // Programs.
    Nothing,
    Stop,
    Atom,
    Seq,
    Par,
    Loop,
    Repeat,
    RepeatExt,
    Generate,
    Await,
    When,
    If,
    Until,
    Control,
    Local,
    Freezable,
}

/// One thing after another in a choice.
#[derive(Clone, Copy, Debug)]
pub enum Symbol {
    /// Exactly these bytes.
    Bytes(&'static str),
    /// A number up to this one, decimal without leading zeros; makes a piece of its own.
    Decimal(u16),
    /// Any of the name's choices.
    Any(Name),
    /// No bytes: here a piece is made.
    Makes(Piece),
}

#[derive(Clone, Copy, Debug)]
pub enum Name {
    Program,
    Config,
    /// What follows the first part of `and` or `or`.
    Joined,
    /// What follows the second or a later part of Seq, and of Par.
    MoreSeq,
    MorePar,
}

type Choice = &'static [Symbol];

const EVENT: Symbol = Decimal(1_023);
const NUMBER: Symbol = Decimal(65_535);
/// The number of a value, and a cap (L14).
const VALUE: Symbol = Decimal(15);
const CAP: Symbol = Decimal(255);
const PROGRAM: Symbol = Any(Program);
const CONFIG: Symbol = Any(Config);
const COMMA: Symbol = Bytes(", ");
const CLOSE: Symbol = Bytes(")");

const PROGRAMS: &[Choice] = &[
    &[Bytes("Jr.Nothing()"), Makes(Nothing)],
    &[Bytes("Jr.Stop()"), Makes(Stop)],
    &[Bytes("Jr.Atom("), NUMBER, CLOSE, Makes(Atom)],
    &[Bytes("Jr.Seq("), PROGRAM, COMMA, PROGRAM, Any(MoreSeq)],
    &[Bytes("Jr.Par("), PROGRAM, COMMA, PROGRAM, Any(MorePar)],
    &[Bytes("Jr.Loop("), PROGRAM, CLOSE, Makes(Loop)],
    &[Bytes("Jr.Repeat("), NUMBER, COMMA, PROGRAM, CLOSE, Makes(Repeat)],
    &[Bytes("Jr.Generate("), EVENT, CLOSE, Makes(Generate)],
    &[Bytes("Jr.Await("), CONFIG, CLOSE, Makes(Await)],
    &[Bytes("Jr.When("), CONFIG, COMMA, PROGRAM, COMMA, PROGRAM, CLOSE, Makes(When)],
    &[Bytes("Jr.Until("), CONFIG, COMMA, PROGRAM, COMMA, PROGRAM, CLOSE, Makes(Until)],
    &[Bytes("Jr.Control("), EVENT, COMMA, PROGRAM, CLOSE, Makes(Control)],
    &[Bytes("Jr.Local("), EVENT, COMMA, PROGRAM, CLOSE, Makes(Local)],
    &[Bytes("Jr.If("), VALUE, COMMA, PROGRAM, COMMA, PROGRAM, CLOSE, Makes(If)],
    &[Bytes("Jr.RepeatExt("), VALUE, COMMA, CAP, COMMA, PROGRAM, CLOSE, Makes(RepeatExt)],
    &[Bytes("Jr.Freezable("), EVENT, COMMA, PROGRAM, CLOSE, Makes(Freezable)],
];

const CONFIGS: &[Choice] =
    &[&[EVENT, Makes(Event)], &[Bytes("(not "), CONFIG, CLOSE, Makes(Not)], &[Bytes("("), CONFIG, Any(Joined)]];

const JOINED: &[Choice] = &[&[Bytes(" and "), CONFIG, CLOSE, Makes(And)], &[Bytes(" or "), CONFIG, CLOSE, Makes(Or)]];

// Parts t1, t2, ..., tn and then n - 1 times Seq: each Seq takes all to its right, as 001 translates several parts.
const MORE_SEQ: &[Choice] = &[&[CLOSE, Makes(Seq)], &[COMMA, PROGRAM, Any(MoreSeq), Makes(Seq)]];
const MORE_PAR: &[Choice] = &[&[CLOSE, Makes(Par)], &[COMMA, PROGRAM, Any(MorePar), Makes(Par)]];

impl Name {
    /// What the name may stand for. Every choice begins with bytes or a number.
    pub fn choices(self) -> &'static [Choice] {
        match self {
            Program => PROGRAMS,
            Config => CONFIGS,
            Joined => JOINED,
            MoreSeq => MORE_SEQ,
            MorePar => MORE_PAR,
        }
    }
}

impl Piece {
    /// How many of the pieces before it are its parts.
    pub fn parts(self) -> usize {
        match self {
            Number(_) | Nothing | Stop => 0,
            Event | Not | Atom | Loop | Generate | Await => 1,
            And | Or | Seq | Par | Repeat | Control | Local | Freezable => 2,
            When | Until | If | RepeatExt => 3,
        }
    }

    /// Its first part is a configuration that decides it.
    pub fn is_test(self) -> bool {
        matches!(self, Await | When | Until)
    }

    /// Its first part is the number of an event.
    pub fn names_event(self) -> bool {
        matches!(self, Event | Generate | Control | Local | Freezable)
    }
}
