//! Configurations (000, 4.1): fixed and eval as printed, `and` binding tighter than `or`.

use crate::env::Env;
use std::rc::Rc;

#[derive(Debug, PartialEq, Eq)]
pub enum Config {
    Event(u16),
    Not(Rc<Config>),
    And(Rc<Config>, Rc<Config>),
    Or(Rc<Config>, Rc<Config>),
}

impl Config {
    /// The configuration can be evaluated in E; the conditions stand as 000 prints them.
    #[allow(clippy::nonminimal_bool)]
    fn fixed(&self, e: Env) -> bool {
        match self {
            Config::Event(s) => e.present.has(*s) || e.eoi,
            Config::Not(c) => c.fixed(e),
            Config::And(c1, c2) => {
                let (f1, f2) = (c1.fixed(e), c2.fixed(e));
                f1 && f2 || f1 && !c1.eval(e) || f2 && !c2.eval(e)
            }
            Config::Or(c1, c2) => {
                let (f1, f2) = (c1.fixed(e), c2.fixed(e));
                f1 && f2 || f1 && c1.eval(e) || f2 && c2.eval(e)
            }
        }
    }

    /// The value of the configuration in E.
    fn eval(&self, e: Env) -> bool {
        match self {
            Config::Event(s) => e.present.has(*s),
            Config::Not(c) => !c.eval(e),
            Config::And(c1, c2) => c1.eval(e) && c2.eval(e),
            Config::Or(c1, c2) => c1.eval(e) || c2.eval(e),
        }
    }

    pub fn sat(&self, e: Env) -> bool {
        self.fixed(e) && self.eval(e)
    }

    pub fn unsat(&self, e: Env) -> bool {
        self.fixed(e) && !self.eval(e)
    }

    /// The events that the configuration mentions, in the order of its text.
    fn mentioned(&self) -> Vec<u16> {
        match self {
            Config::Event(s) => vec![*s],
            Config::Not(c) => c.mentioned(),
            Config::And(c1, c2) | Config::Or(c1, c2) => [c1.mentioned(), c2.mentioned()].concat(),
        }
    }

    /// The lowest event that the configuration mentions and that isn't present in E (L1).
    pub fn missing(&self, e: Env) -> Option<u16> {
        self.mentioned().into_iter().filter(|&s| !e.present.has(s)).min()
    }

    /// The form of the configuration lets it have this value before the end is declared (L2).
    pub fn early(&self, value: bool) -> bool {
        match self {
            Config::Event(_) => value,
            Config::Not(c) => c.early(!value),
            Config::And(c1, c2) if value => c1.early(true) && c2.early(true),
            Config::And(c1, c2) => c1.early(false) || c2.early(false),
            Config::Or(c1, c2) if value => c1.early(true) || c2.early(true),
            Config::Or(c1, c2) => c1.early(false) && c2.early(false),
        }
    }
}

#[cfg(test)]
mod tests {
    use super::*;
    use crate::env::Events;

    /// Some(value) where fixed, None where unknown.
    fn value(c: &Config, e: Env) -> Option<bool> {
        match (c.sat(e), c.unsat(e)) {
            (true, false) => Some(true),
            (false, true) => Some(false),
            (false, false) => None,
            (true, true) => panic!("both values"),
        }
    }

    // C9: together fixed and eval are three-valued logic.
    #[test]
    fn three_valued_logic() {
        let event = |s| Rc::new(Config::Event(s));
        let not = |s| Rc::new(Config::Not(event(s)));
        // Events 0 and 1 are present, 2 and 3 unknown until the end.
        let before = Env { present: [0, 1].into_iter().collect(), eoi: false, moved: false };
        let after = Env { eoi: true, ..before };
        let parts = [event(0), event(2), not(1), not(3)];
        for c1 in &parts {
            for c2 in &parts {
                for e in [before, after] {
                    let (v1, v2) = (value(c1, e), value(c2, e));
                    let and = match (v1, v2) {
                        (Some(false), _) | (_, Some(false)) => Some(false),
                        (Some(true), Some(true)) => Some(true),
                        _ => None,
                    };
                    let or = match (v1, v2) {
                        (Some(true), _) | (_, Some(true)) => Some(true),
                        (Some(false), Some(false)) => Some(false),
                        _ => None,
                    };
                    assert_eq!(value(&Config::And(c1.clone(), c2.clone()), e), and);
                    assert_eq!(value(&Config::Or(c1.clone(), c2.clone()), e), or);
                }
            }
        }
        assert_eq!(value(&Config::Event(2), Env { present: Events::none(), ..after }), Some(false));
    }
}
