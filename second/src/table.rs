//! The table: its bytes read into a tree of nodes, or refused (01, refusals 1 to 6).

use crate::config::Config;
use crate::env::{EVENTS, VALUES};
use std::rc::Rc;

/// A refusal: its number and its index.
#[derive(Clone, Copy, Debug, PartialEq, Eq)]
pub struct Refusal {
    pub number: u8,
    pub index: usize,
}

impl Refusal {
    pub fn new(number: u8, index: usize) -> Refusal {
        Refusal { number, index }
    }
}

/// What a good table holds.
#[derive(Debug)]
pub struct Program {
    pub root: Node,
    /// V: events are numbered below it.
    pub events: usize,
}

/// A node: its index, its size and the form written there.
#[derive(Debug)]
pub struct Node {
    pub at: usize,
    pub size: usize,
    pub written: Written,
}

/// The sixteen forms of a table, with their children.
#[derive(Debug)]
pub enum Written {
    Nothing,
    Stop,
    Atom(u16),
    Seq(Box<Node>, Box<Node>),
    Par(Box<Node>, Box<Node>),
    Loop(Box<Node>),
    Repeat(u16, Box<Node>),
    Generate(u16),
    Await(Rc<Config>),
    When(Rc<Config>, Box<Node>, Box<Node>),
    Until(Rc<Config>, Box<Node>, Box<Node>),
    Control(u16, Box<Node>),
    Local(u16, Box<Node>),
    /// The number of a value and the two branches (L14).
    If(u8, Box<Node>, Box<Node>),
    /// The number of a value, the cap and the body (L14).
    RepeatExt(u8, u8, Box<Node>),
    /// The event that freezes the body (L8).
    Freezable(u16, Box<Node>),
}

const NODE_BYTES: usize = 6;
const CONFIG_BYTES: usize = 4;
const TRAILER_BYTES: usize = 10;

/// Reads a table, meeting the refusals 1 to 6 in their order.
pub fn read(table: &[u8]) -> Result<Program, Refusal> {
    if table.len() < 16 || table.len() > 32_778 {
        return Err(Refusal::new(1, 0));
    }
    let trailer = &table[table.len() - TRAILER_BYTES..];
    let (n, m, v) = (word(trailer, 0), word(trailer, 2), word(trailer, 4));
    if !(1..=4096).contains(&n) || m > 2048 || !(1..=EVENTS).contains(&v) {
        return Err(Refusal::new(2, 0));
    }
    let (to_nodes, to_configs) = (NODE_BYTES * n + CONFIG_BYTES * m, CONFIG_BYTES * m);
    if word(trailer, 6) != to_nodes || word(trailer, 8) != to_configs || table.len() != to_nodes + TRAILER_BYTES {
        return Err(Refusal::new(3, 0));
    }
    let (nodes, rest) = table.split_at(NODE_BYTES * n);
    let configs = read_configs(&rest[..to_configs], v)?;
    let records: Vec<NodeRecord> = nodes.chunks(NODE_BYTES).map(NodeRecord::new).collect();
    let sizes: Vec<usize> = records.iter().map(|r| r.size).collect();
    if let Some(bad) = (0..n).find(|&at| !good_node(&records, &sizes, at, m, v)) {
        return Err(Refusal::new(5, bad));
    }
    if let Some(deep) = depths(&records, &sizes).iter().position(|&depth| depth > 64) {
        return Err(Refusal::new(6, deep));
    }
    Ok(Program { root: tree(&records, &sizes, &configs, 0), events: v })
}

/// A node of a good table and all below it as a table of its own (L8): their records as they stand, all configurations, the same V.
pub fn part(table: &[u8], node: &Node) -> Vec<u8> {
    let (records, trailer) = table.split_at(table.len() - TRAILER_BYTES);
    let (n, m, v) = (word(trailer, 0), word(trailer, 2), word(trailer, 4));
    let (nodes, configs) = records.split_at(NODE_BYTES * n);
    let kept = nodes.chunks(NODE_BYTES).skip(node.at).take(node.size);
    let mut part = kept.chain([configs]).collect::<Vec<_>>().concat();
    for number in [node.size, m, v, part.len(), configs.len()] {
        part.extend((number as u16).to_be_bytes());
    }
    part
}

/// The 16-bit big-endian number at an offset.
pub fn word(bytes: &[u8], from: usize) -> usize {
    usize::from(u16::from_be_bytes([bytes[from], bytes[from + 1]]))
}

/// The indexes of a record's children, if all are below the number of records: the first is the
/// next record, the second stands behind all of the first, by the first's written size.
fn children(sizes: &[usize], at: usize, wanted: usize) -> Option<Vec<usize>> {
    let mut found = Vec::with_capacity(wanted);
    let mut child = at + 1;
    for _ in 0..wanted {
        found.push(child);
        child += sizes.get(child)?;
    }
    Some(found)
}

/// The children are there and the size is 1 plus their written sizes.
fn laid_out(sizes: &[usize], at: usize, wanted: usize) -> bool {
    match children(sizes, at, wanted) {
        Some(found) => sizes[at] == 1 + found.iter().map(|&child| sizes[child]).sum::<usize>(),
        None => false,
    }
}

struct NodeRecord {
    kind: u8,
    zero: u8,
    argument: usize,
    size: usize,
}

impl NodeRecord {
    fn new(bytes: &[u8]) -> NodeRecord {
        NodeRecord { kind: bytes[0], zero: bytes[1], argument: word(bytes, 2), size: word(bytes, 4) }
    }

    /// How many children the kind has.
    fn children(&self) -> usize {
        match self.kind {
            3 | 4 | 9 | 10 | 14 => 2,
            5 | 6 | 11 | 12 | 13 | 15 => 1,
            _ => 0,
        }
    }
}

fn good_node(records: &[NodeRecord], sizes: &[usize], at: usize, m: usize, v: usize) -> bool {
    let record = &records[at];
    let argument = match record.kind {
        2 | 6 => true,
        7 | 11..=13 => record.argument < v,
        8..=10 => record.argument < m,
        0..=12 => record.argument == 0,
        14 => record.argument < VALUES,
        // A cap of at most 255, times 16, plus the number of a value.
        15 => record.argument < 256 * VALUES,
        _ => return false,
    };
    let whole = at > 0 || record.size == records.len();
    argument && record.zero == 0 && whole && laid_out(sizes, at, record.children())
}

/// Each node's depth, node 0 being at depth 1.
fn depths(records: &[NodeRecord], sizes: &[usize]) -> Vec<usize> {
    let mut depths = vec![1; records.len()];
    for at in 0..records.len() {
        for child in children(sizes, at, records[at].children()).into_iter().flatten() {
            depths[child] = depths[at] + 1;
        }
    }
    depths
}

fn tree(records: &[NodeRecord], sizes: &[usize], configs: &[Rc<Config>], at: usize) -> Node {
    let NodeRecord { kind, argument, size, .. } = records[at];
    let first = || Box::new(tree(records, sizes, configs, at + 1));
    let second = || Box::new(tree(records, sizes, configs, at + 1 + sizes[at + 1]));
    let event = || argument as u16;
    let test = || configs[argument].clone();
    let written = match kind {
        0 => Written::Nothing,
        1 => Written::Stop,
        2 => Written::Atom(argument as u16),
        3 => Written::Seq(first(), second()),
        4 => Written::Par(first(), second()),
        5 => Written::Loop(first()),
        6 => Written::Repeat(argument as u16, first()),
        7 => Written::Generate(event()),
        8 => Written::Await(test()),
        9 => Written::When(test(), first(), second()),
        10 => Written::Until(test(), first(), second()),
        11 => Written::Control(event(), first()),
        13 => Written::Freezable(event(), first()),
        14 => Written::If(argument as u8, first(), second()),
        15 => Written::RepeatExt((argument % VALUES) as u8, (argument / VALUES) as u8, first()),
        _ => Written::Local(event(), first()),
    };
    Node { at, size, written }
}

/// What a configuration record's first two bytes say.
#[derive(Clone, Copy)]
enum Says {
    Event(u16),
    Not,
    And,
    Or,
}

struct ConfigRecord {
    /// None if the two bytes say nothing.
    says: Option<Says>,
    size: usize,
}

impl ConfigRecord {
    fn new(bytes: &[u8]) -> ConfigRecord {
        let event = |more: u16| Some(Says::Event(more + u16::from(bytes[1])));
        let says = match (bytes[0], bytes[1]) {
            (0, _) => event(0),
            // Kinds 16, 32 and 48 are those of the events from 256 on (L10).
            (16, _) => event(256),
            (32, _) => event(512),
            (48, _) => event(768),
            (1, 0) => Some(Says::Not),
            (2, 0) => Some(Says::And),
            (3, 0) => Some(Says::Or),
            _ => None,
        };
        ConfigRecord { says, size: word(bytes, 2) }
    }

    /// How many parts it has.
    fn parts(&self) -> usize {
        match self.says {
            Some(Says::Not) => 1,
            Some(Says::And | Says::Or) => 2,
            Some(Says::Event(_)) | None => 0,
        }
    }
}

/// Every configuration record as a configuration, or refusal 4.
fn read_configs(bytes: &[u8], v: usize) -> Result<Vec<Rc<Config>>, Refusal> {
    let records: Vec<ConfigRecord> = bytes.chunks(CONFIG_BYTES).map(ConfigRecord::new).collect();
    let sizes: Vec<usize> = records.iter().map(|r| r.size).collect();
    // A record that is bad for a reason other than its height counts as height 1.
    let mut heights = vec![1; records.len()];
    let mut lowest_bad = None;
    for at in (0..records.len()).rev() {
        let record = &records[at];
        let sound = match record.says {
            Some(Says::Event(s)) => usize::from(s) < v,
            Some(_) => true,
            None => false,
        };
        let good = sound && laid_out(&sizes, at, record.parts());
        if good {
            let below = children(&sizes, at, record.parts()).into_iter().flatten();
            heights[at] = 1 + below.map(|child| heights[child]).max().unwrap_or(0);
        }
        if !good || heights[at] > 16 {
            lowest_bad = Some(at);
        }
    }
    if let Some(bad) = lowest_bad {
        return Err(Refusal::new(4, bad));
    }
    // Good parts stand behind their whole, so building from the last record on meets them first.
    let mut behind: Vec<Rc<Config>> = Vec::with_capacity(records.len());
    for at in (0..records.len()).rev() {
        let part = |child: usize| behind[records.len() - 1 - child].clone();
        let config = match records[at].says.expect("a good record") {
            Says::Event(s) => Config::Event(s),
            Says::Not => Config::Not(part(at + 1)),
            Says::And => Config::And(part(at + 1), part(at + 1 + sizes[at + 1])),
            Says::Or => Config::Or(part(at + 1), part(at + 1 + sizes[at + 1])),
        };
        behind.push(Rc::new(config));
    }
    behind.reverse();
    Ok(behind)
}
