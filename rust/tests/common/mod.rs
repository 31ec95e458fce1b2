//! Chains and results in a short form, for the tests.
use stall::{Chain, Scaled};

/// The chain of these moves (from, to, rate), sorted by from and to.
pub fn chain(order: usize, moves: &[(u32, u32, u32)]) -> Chain {
    let mut starts = vec![0];
    for i in 0..order as u32 {
        starts.push(moves.iter().filter(|m| m.0 <= i).count() as u32);
    }
    Chain {
        order,
        starts,
        columns: moves.iter().map(|m| m.1).collect(),
        rates: moves.iter().map(|m| m.2).collect(),
    }
}

pub fn pairs(numbers: &[Scaled]) -> Vec<(u32, i32)> {
    numbers.iter().map(|x| (x.m, x.e)).collect()
}

/// The ring of case 3.
pub fn ring() -> Chain {
    chain(3, &[(0, 1, 2), (1, 2, 4), (2, 0, 8)])
}
