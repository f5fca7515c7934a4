//! The one spelling of an accepted table: its tree in the written form, Seq and Par with two parts.

use crate::config::Config;
use crate::table::{Node, Written};
use std::fmt::{Display, Formatter, Result};

impl Display for Config {
    fn fmt(&self, f: &mut Formatter) -> Result {
        match self {
            Config::Event(s) => write!(f, "{s}"),
            Config::Not(c) => write!(f, "(not {c})"),
            Config::And(c, d) => write!(f, "({c} and {d})"),
            Config::Or(c, d) => write!(f, "({c} or {d})"),
        }
    }
}

impl Display for Node {
    fn fmt(&self, f: &mut Formatter) -> Result {
        match &self.written {
            Written::Nothing => write!(f, "Jr.Nothing()"),
            Written::Stop => write!(f, "Jr.Stop()"),
            Written::Atom(a) => write!(f, "Jr.Atom({a})"),
            Written::Seq(t, u) => write!(f, "Jr.Seq({t}, {u})"),
            Written::Par(t, u) => write!(f, "Jr.Par({t}, {u})"),
            Written::Loop(t) => write!(f, "Jr.Loop({t})"),
            Written::Repeat(n, t) => write!(f, "Jr.Repeat({n}, {t})"),
            Written::Generate(s) => write!(f, "Jr.Generate({s})"),
            Written::Await(c) => write!(f, "Jr.Await({c})"),
            Written::When(c, t, u) => write!(f, "Jr.When({c}, {t}, {u})"),
            Written::Until(c, t, u) => write!(f, "Jr.Until({c}, {t}, {u})"),
            Written::Control(s, t) => write!(f, "Jr.Control({s}, {t})"),
            Written::Local(s, t) => write!(f, "Jr.Local({s}, {t})"),
            Written::If(number, t, u) => write!(f, "Jr.If({number}, {t}, {u})"),
            Written::RepeatExt(number, cap, t) => write!(f, "Jr.RepeatExt({number}, {cap}, {t})"),
            Written::Freezable(s, t) => write!(f, "Jr.Freezable({s}, {t})"),
        }
    }
}

/// A test that can wait, in the written form, with `..` for what it runs.
pub fn own_part(node: &Node) -> String {
    match &node.written {
        Written::Await(c) => format!("Jr.Await({c})"),
        Written::When(c, ..) => format!("Jr.When({c}, ..)"),
        Written::Until(c, ..) => format!("Jr.Until({c}, ..)"),
        Written::Control(s, _) => format!("Jr.Control({s}, ..)"),
        Written::Freezable(s, _) => format!("Jr.Freezable({s}, ..)"),
        _ => panic!("node {} is no test", node.at),
    }
}
