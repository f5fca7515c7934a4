//! Environments of a pass (000, 2.4): the present events, the end of the instant and move.

/// How many event numbers there are; as the number of an event it stands for none.
pub const EVENTS: usize = 1024;

/// A set of events, one bit for each event number.
#[derive(Clone, Copy, Debug, PartialEq, Eq)]
pub struct Events([u128; EVENTS / 128]);

impl Events {
    /// The set without any event.
    pub fn none() -> Events {
        Events([0; EVENTS / 128])
    }

    /// S is in E.
    pub fn has(self, s: u16) -> bool {
        self.0[usize::from(s / 128)] >> (s % 128) & 1 == 1
    }

    /// E + S.
    pub fn with(mut self, s: u16) -> Events {
        self.0[usize::from(s / 128)] |= 1 << (s % 128);
        self
    }

    /// E - S.
    pub fn without(mut self, s: u16) -> Events {
        self.0[usize::from(s / 128)] &= !(1 << (s % 128));
        self
    }

    /// E/F[S]: E, except for S, which F determines.
    pub fn as_in(self, f: Events, s: u16) -> Events {
        if f.has(s) {
            self.with(s)
        } else {
            self.without(s)
        }
    }

    /// The events of the set, rising.
    pub fn rising(self) -> impl Iterator<Item = u16> {
        (0..EVENTS as u16).filter(move |&s| self.has(s))
    }
}

impl FromIterator<u16> for Events {
    fn from_iter<I: IntoIterator<Item = u16>>(events: I) -> Events {
        events.into_iter().fold(Events::none(), Events::with)
    }
}

/// How many values the box hands in with each instant (L14).
pub const VALUES: usize = 16;

/// The values themselves, fixed throughout the instant.
pub type Values = [u8; VALUES];

/// An environment E.
#[derive(Clone, Copy, Debug, PartialEq, Eq)]
pub struct Env {
    pub present: Events,
    /// eoi(E): the end of the instant is declared.
    pub eoi: bool,
    /// move(E): some change asks for another pass before the end.
    pub moved: bool,
}

#[cfg(test)]
mod tests {
    use super::*;

    #[test]
    fn steps_of_the_set() {
        let e: Events = [0, 127, 128, 255, 128, 1023, 256].into_iter().collect();
        assert_eq!(e.rising().collect::<Vec<_>>(), [0, 127, 128, 255, 256, 1023]);
        assert!(!e.without(128).has(128));
        assert!(e.without(128).has(0));
        assert_eq!(e.without(7), e);
        assert_eq!(e.as_in(Events::none(), 255), e.without(255));
        assert_eq!(Events::none().as_in(e, 127), Events::none().with(127));
    }
}
