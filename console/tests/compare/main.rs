//! The C functions compared with unverified programs, each written from the papers alone: a listing
//! of all layouts, the report's method, a parser, changes of the nodes, the list of moves, what the
//! papers say of lent cells, a listing of all sets of nodes that can be lost, and a stranger's check of
//! certificates, which judges every plan.
//!
//! Every run tries the same cases. `make soak` tries many more: the tests that are ignored here.

mod ceilings;
mod cells;
mod certificates;
mod changes;
mod clusters;
mod counts;
mod cycles;
mod demands;
mod lent;
mod moves;
mod paper;
mod paths;
mod records;
mod sent;
mod usable;
mod worst;
mod worst_loss;

/// How many times as many cases a soak tries.
fn soak_factor() -> u64 {
    from_environment("SOAK", 100)
}

/// A seed of a soak; with another SEED it tries other cases.
fn soak_seed(seed: u64) -> u64 {
    seed + 1000 * from_environment("SEED", 0)
}

fn from_environment(name: &str, usual: u64) -> u64 {
    match std::env::var(name) {
        Ok(value) => value.parse().expect("a number"),
        Err(_) => usual,
    }
}
