//! The generator: random and edge cases, each a line of the calls program or a listing.

pub mod calls;
mod configuration_edges;
pub mod draft;
pub mod edges;
mod event_edges;
mod grow;
mod harm;
pub mod limits;
pub mod listings;
mod loop_edges;
pub mod loops;
pub mod orders;
mod park_edges;
pub mod parked;
mod print_edges;
pub mod random;
mod rest;
mod spoil;
mod stores;
pub mod text_edges;
pub mod texts;
mod value_edges;
pub mod values;
mod wait_edges;
pub mod waits;
mod wide;
mod write;

/// As many random lines of a sort as asked for, the same for the same seed.
pub fn lines(sort: &str, cases: usize, seed: u64) -> Option<Box<dyn Iterator<Item = String>>> {
    match sort {
        "calls" => Some(Box::new(calls::lines(cases, seed))),
        "loops" => Some(Box::new(loops::lines(cases, seed))),
        "orders" => Some(Box::new(orders::lines(cases, seed))),
        "parked" => Some(Box::new(parked::lines(cases, seed))),
        "texts" => Some(Box::new(texts::lines(cases, seed))),
        "values" => Some(Box::new(values::lines(cases, seed))),
        "waits" => Some(Box::new(waits::lines(cases, seed))),
        _ => None,
    }
}
