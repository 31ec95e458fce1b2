//! Chains with states outside their closed set, and with several closed sets.
mod common;

use common::{chain, pairs, ring};
use stall::{read, solve, solve_groups, Chain, ChainReason, Refusal, Scaled, Solution};

#[test]
fn several_closed_sets() {
    let refused = |input: &Chain, first, second| {
        let reason = ChainReason::ClosedSets { first, second };
        assert_eq!(solve(input), Err(Refusal::Chain(reason)));
    };
    refused(&chain(2, &[]), 0, 1);
    refused(&chain(64, &[]), 0, 1);
    // 0 and 1, 2 and 3; then 1 and 2, 3, with 0 leading into both.
    let pairs = [(0, 1, 1), (1, 0, 1), (2, 3, 1), (3, 2, 1)];
    refused(&chain(4, &pairs), 0, 2);
    let traps = [(0, 1, 1), (0, 3, 1), (1, 2, 1), (2, 1, 1)];
    refused(&chain(4, &traps), 1, 3);
}

/// What solving gives for a chain of these moves: the bound, the weights and the shares.
fn solved(order: usize, moves: &[(u32, u32, u32)]) -> (usize, Vec<(u32, i32)>, Vec<(u32, i32)>) {
    let Solution {
        bound,
        weights,
        shares,
    } = solve(&chain(order, moves)).unwrap();
    (bound, pairs(&weights), pairs(&shares))
}

#[test]
fn states_outside_the_closed_set() {
    let (zero, half, one) = ((0, 0), (2147483648, -32), (2147483648, -31));
    // Case 6 cleaned, case 7, and only 0 to 1.
    assert_eq!(
        solved(2, &[(1, 0, 5)]),
        (0, vec![one, zero], vec![one, zero])
    );
    assert_eq!(
        solved(3, &[(0, 1, 1), (1, 0, 1), (2, 0, 1)]),
        (8, vec![one, one, zero], vec![half, half, zero])
    );
    assert_eq!(
        solved(2, &[(0, 1, 3)]),
        (0, vec![zero, one], vec![zero, one])
    );
    // The ring of case 3 as states 0, 2 and 4, to which 1 and 3 lead.
    let moves = [
        (0, 2, 2),
        (1, 3, 7),
        (2, 4, 4),
        (3, 1, 1),
        (3, 2, 1),
        (4, 0, 8),
    ];
    let ring = solve(&ring()).unwrap();
    let between = |numbers: &[Scaled]| {
        let three = pairs(numbers);
        assert_eq!(three.len(), 3);
        vec![three[0], zero, three[1], zero, three[2]]
    };
    assert_eq!(
        solved(5, &moves),
        (28, between(&ring.weights), between(&ring.shares))
    );
}

#[test]
fn groups_outside_the_closed_set() {
    let seven = chain(3, &[(0, 1, 1), (1, 0, 1), (2, 0, 1)]);
    let solved = solve_groups(&seven, &[[2, 2, 4], [0, 1, 9]]).unwrap();
    assert_eq!(solved.solution, solve(&seven).unwrap());
    assert!(solved.groups[4].is_zero());
    assert_eq!(pairs(&solved.groups[9..10]), [(2147483648, -31)]);
    let mixed = solve_groups(&seven, &[[1, 2, 4], [0, 0, 9]]).unwrap();
    assert_eq!(pairs(&mixed.groups[4..5]), [(2147483648, -32)]);
}

#[test]
fn the_station_from_power_on() {
    let examples = concat!(env!("CARGO_MANIFEST_DIR"), "/../examples");
    let solved = |name: &str| {
        let bytes = std::fs::read(format!("{examples}/{name}.chain")).unwrap();
        solve(&read(&bytes).unwrap().chain)
    };
    let (station, whole) = (solved("station").unwrap(), solved("power-on").unwrap());
    assert_eq!(whole.bound, station.bound);
    assert_eq!(whole.weights[3..9], station.weights);
    assert_eq!(whole.shares[3..9], station.shares);
    for i in [0, 1, 2, 9] {
        assert!(whole.weights[i].is_zero() && whole.shares[i].is_zero());
    }
    assert_eq!(
        solved("two-traps").unwrap_err().to_string(),
        "refused 6 5 6"
    );
}
