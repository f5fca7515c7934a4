//! Drafts: programs and conditions as trees, and the tables made from them.

/// A condition, to become configuration records.
#[derive(Clone, Debug, PartialEq, Eq)]
pub enum Cond {
    Event(u16),
    Not(Box<Cond>),
    And(Box<Cond>, Box<Cond>),
    Or(Box<Cond>, Box<Cond>),
}

/// A program, to become node records.
#[derive(Clone, Debug)]
pub enum Draft {
    Nothing,
    Stop,
    Atom(u16),
    Seq(Box<Draft>, Box<Draft>),
    Par(Box<Draft>, Box<Draft>),
    Loop(Box<Draft>),
    Repeat(u16, Box<Draft>),
    Generate(u16),
    Await(Cond),
    When(Cond, Box<Draft>, Box<Draft>),
    Until(Cond, Box<Draft>, Box<Draft>),
    Control(u16, Box<Draft>),
    Local(u16, Box<Draft>),
    /// The number of a value and the two branches.
    If(u16, Box<Draft>, Box<Draft>),
    /// The number of a value, the cap and the body.
    RepeatExt(u16, u16, Box<Draft>),
    /// The event that freezes the body.
    Freezable(u16, Box<Draft>),
}

/// Short names for drafts, so that programs read like those of the documents.
pub mod short {
    use super::{Cond, Draft};

    pub fn event(s: u16) -> Cond {
        Cond::Event(s)
    }
    pub fn not(c: Cond) -> Cond {
        Cond::Not(Box::new(c))
    }
    pub fn and(c: Cond, d: Cond) -> Cond {
        Cond::And(Box::new(c), Box::new(d))
    }
    pub fn or(c: Cond, d: Cond) -> Cond {
        Cond::Or(Box::new(c), Box::new(d))
    }
    pub fn nothing() -> Draft {
        Draft::Nothing
    }
    pub fn stop() -> Draft {
        Draft::Stop
    }
    pub fn atom(a: u16) -> Draft {
        Draft::Atom(a)
    }
    pub fn seq(t: Draft, u: Draft) -> Draft {
        Draft::Seq(Box::new(t), Box::new(u))
    }
    pub fn par(t: Draft, u: Draft) -> Draft {
        Draft::Par(Box::new(t), Box::new(u))
    }
    pub fn forever(t: Draft) -> Draft {
        Draft::Loop(Box::new(t))
    }
    pub fn repeat(n: u16, t: Draft) -> Draft {
        Draft::Repeat(n, Box::new(t))
    }
    pub fn generate(s: u16) -> Draft {
        Draft::Generate(s)
    }
    pub fn wait(c: Cond) -> Draft {
        Draft::Await(c)
    }
    pub fn when(c: Cond, t: Draft, u: Draft) -> Draft {
        Draft::When(c, Box::new(t), Box::new(u))
    }
    pub fn until(c: Cond, t: Draft, u: Draft) -> Draft {
        Draft::Until(c, Box::new(t), Box::new(u))
    }
    pub fn control(s: u16, t: Draft) -> Draft {
        Draft::Control(s, Box::new(t))
    }
    pub fn local(s: u16, t: Draft) -> Draft {
        Draft::Local(s, Box::new(t))
    }
    pub fn choose(value: u16, t: Draft, u: Draft) -> Draft {
        Draft::If(value, Box::new(t), Box::new(u))
    }
    pub fn repeat_ext(value: u16, cap: u16, t: Draft) -> Draft {
        Draft::RepeatExt(value, cap, Box::new(t))
    }
    pub fn freezable(s: u16, t: Draft) -> Draft {
        Draft::Freezable(s, Box::new(t))
    }
}

/// A node record as numbers, not checked in any way.
#[derive(Clone, Debug)]
pub struct NodeRecord {
    pub kind: u8,
    pub zero: u8,
    pub argument: u16,
    pub size: u16,
}

impl NodeRecord {
    pub fn new(kind: u8, argument: u16, size: u16) -> NodeRecord {
        NodeRecord { kind, zero: 0, argument, size }
    }
}

/// A configuration record as numbers, not checked in any way: its kind byte, its event byte, its size.
#[derive(Clone, Debug)]
pub struct ConfigRecord {
    pub kind: u8,
    pub event: u8,
    pub size: u16,
}

impl ConfigRecord {
    pub fn new(kind: u8, event: u8, size: u16) -> ConfigRecord {
        ConfigRecord { kind, event, size }
    }

    /// The number of an event's record, none for another's.
    pub fn number(&self) -> Option<u16> {
        self.kind.is_multiple_of(16).then(|| 16 * u16::from(self.kind) + u16::from(self.event))
    }

    /// Makes it the record of an event; the number is below 4,096, whether or not a table may name it.
    pub fn set_number(&mut self, number: u16) {
        let [high, low] = number.to_be_bytes();
        (self.kind, self.event) = (16 * high, low);
    }
}

/// A table as records, not checked in any way.
#[derive(Clone, Debug, Default)]
pub struct Records {
    pub nodes: Vec<NodeRecord>,
    pub configs: Vec<ConfigRecord>,
    pub events: u16,
    /// Where each condition written so far begins, if tests share configurations.
    shared: Option<Vec<(Cond, u16)>>,
}

impl Records {
    /// The records of a program; each test has configuration records of its own.
    pub fn new(events: u16, program: &Draft) -> Records {
        let mut records = Records { events, ..Records::default() };
        records.put(program);
        records
    }

    /// The records of a program; tests of equal conditions share them, also those of a part.
    pub fn sharing(events: u16, program: &Draft) -> Records {
        let mut records = Records { events, shared: Some(vec![]), ..Records::default() };
        records.put(program);
        records
    }

    /// Records as given: nodes by kind, argument and size, configurations by kind byte, event byte and size.
    pub fn raw(events: u16, nodes: &[(u8, u16, u16)], configs: &[(u8, u8, u16)]) -> Records {
        Records {
            nodes: nodes.iter().map(|&(kind, argument, size)| NodeRecord::new(kind, argument, size)).collect(),
            configs: configs.iter().map(|&(kind, event, size)| ConfigRecord::new(kind, event, size)).collect(),
            events,
            shared: None,
        }
    }

    /// The table's bytes, with a trailer that fits the records.
    pub fn bytes(&self) -> Vec<u8> {
        let mut bytes = Vec::with_capacity(6 * self.nodes.len() + 4 * self.configs.len() + 10);
        for node in &self.nodes {
            bytes.extend([node.kind, node.zero]);
            bytes.extend(node.argument.to_be_bytes());
            bytes.extend(node.size.to_be_bytes());
        }
        for config in &self.configs {
            bytes.extend([config.kind, config.event]);
            bytes.extend(config.size.to_be_bytes());
        }
        let (n, m) = (self.nodes.len(), self.configs.len());
        for number in [n, m, usize::from(self.events), 6 * n + 4 * m, 4 * m] {
            bytes.extend((number as u16).to_be_bytes());
        }
        bytes
    }

    /// Appends a program's records.
    fn put(&mut self, program: &Draft) {
        let at = self.nodes.len();
        let (kind, argument, below): (u8, u16, Vec<&Draft>) = match program {
            Draft::Nothing => (0, 0, vec![]),
            Draft::Stop => (1, 0, vec![]),
            Draft::Atom(a) => (2, *a, vec![]),
            Draft::Seq(t, u) => (3, 0, vec![t, u]),
            Draft::Par(t, u) => (4, 0, vec![t, u]),
            Draft::Loop(t) => (5, 0, vec![t]),
            Draft::Repeat(n, t) => (6, *n, vec![t]),
            Draft::Generate(s) => (7, *s, vec![]),
            Draft::Await(c) => (8, self.test(c), vec![]),
            Draft::When(c, t, u) => (9, self.test(c), vec![t, u]),
            Draft::Until(c, t, u) => (10, self.test(c), vec![t, u]),
            Draft::Control(s, t) => (11, *s, vec![t]),
            Draft::Local(s, t) => (12, *s, vec![t]),
            Draft::If(value, t, u) => (14, *value, vec![t, u]),
            Draft::RepeatExt(value, cap, t) => (15, 16 * cap + value, vec![t]),
            Draft::Freezable(s, t) => (13, *s, vec![t]),
        };
        self.nodes.push(NodeRecord::new(kind, argument, 0));
        for child in below {
            self.put(child);
        }
        self.nodes[at].size = (self.nodes.len() - at) as u16;
    }

    /// The index of a test's configuration, written if need be.
    fn test(&mut self, cond: &Cond) -> u16 {
        let known = self.shared.as_ref().and_then(|shared| shared.iter().find(|(other, _)| other == cond));
        match known {
            Some((_, index)) => *index,
            None => self.put_cond(cond),
        }
    }

    /// Appends a condition's records and gives the index of the first.
    pub fn put_cond(&mut self, cond: &Cond) -> u16 {
        let at = self.configs.len();
        let (kind, event, parts): (u8, u16, Vec<&Cond>) = match cond {
            Cond::Event(s) => (0, *s, vec![]),
            Cond::Not(c) => (1, 0, vec![c]),
            Cond::And(c, d) => (2, 0, vec![c, d]),
            Cond::Or(c, d) => (3, 0, vec![c, d]),
        };
        let [high, low] = event.to_be_bytes();
        self.configs.push(ConfigRecord::new(kind + 16 * high, low, 0));
        for part in parts {
            self.put_cond(part);
        }
        self.configs[at].size = (self.configs.len() - at) as u16;
        if let Some(shared) = &mut self.shared {
            shared.push((cond.clone(), at as u16));
        }
        at as u16
    }
}
