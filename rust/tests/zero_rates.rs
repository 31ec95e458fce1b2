//! A rate of 0 is refused by 14, with its row and column: in a chain after 4 and before all else, in bytes as soon as it has been read.
mod common;

use common::{chain, pairs, ring};
use stall::{read, solve, solve_groups, write, BytesReason, Chain, ChainReason, Refusal};

const CASE_6: [u8; 11] = [2, 2, 0, 0, 0, 0, 1, 5, 0, 0, 0];

/// Solving, solving by group with a broken table, and writing all give this reason.
fn refused(input: &Chain, reason: ChainReason) {
    let refusal = Refusal::Chain(reason);
    assert_eq!(solve(input), Err(refusal));
    assert_eq!(solve_groups(input, &[[1, 0, 16]]), Err(refusal));
    assert_eq!(write(input), Err(refusal));
}

#[test]
fn in_a_chain() {
    let zero = |row, column| ChainReason::ZeroRate { row, column };
    refused(&chain(2, &[(0, 1, 0), (1, 0, 5)]), zero(0, 1));
    let rates = vec![2, 4, 0];
    refused(&Chain { rates, ..ring() }, zero(2, 0));
    // Two closed sets too.
    refused(&chain(2, &[(0, 1, 0), (1, 0, 0)]), zero(0, 1));
    // The column, not the place in the row or among all entries; of several the first in row order.
    let moves = |rates: [u32; 6]| {
        let places = [(0, 1), (0, 2), (1, 0), (1, 2), (2, 0), (2, 1)];
        let moves: Vec<_> = places
            .iter()
            .zip(rates)
            .map(|(&(i, j), rate)| (i, j, rate))
            .collect();
        chain(3, &moves)
    };
    refused(&moves([1, 1, 1, 0, 1, 1]), zero(1, 2));
    refused(&moves([1, 0, 0, 1, 1, 0]), zero(0, 2));
    refused(&moves([1, 1, 1, 1, 1, 0]), zero(2, 1));
    // A rule of the columns broken in the last row comes first, and so do the starts.
    let mut broken = moves([0, 1, 1, 1, 1, 1]);
    broken.columns[5] = 2;
    refused(&broken, ChainReason::Columns { row: 2, place: 5 });
    broken.starts[3] = 5;
    refused(&broken, ChainReason::Starts);
}

#[test]
fn in_bytes() {
    let refused = |bytes: &[u8], reason| assert_eq!(read(bytes), Err(Refusal::Bytes(reason)));
    let zero = |row, column| BytesReason::ZeroRate { row, column };
    refused(&CASE_6, zero(0, 1));
    // Before the end of the same row, the end of the bytes, a bad bit of a later row, and a byte left over.
    refused(&[3, 6, 0, 0, 0, 0, 7, 0], zero(0, 1));
    refused(&CASE_6[..6], zero(0, 1));
    refused(&[2, 2, 0, 0, 0, 0, 2, 5, 0, 0, 0], zero(0, 1));
    refused(&[2, 2, 5, 0, 0, 0, 1, 0, 0, 0, 0, 9], zero(1, 0));
    // Three of its bytes are too few, and a bad bit of its own map comes first.
    refused(&CASE_6[..5], BytesReason::Short);
    refused(
        &[2, 3, 0, 0, 0, 0, 0, 0, 0, 0],
        BytesReason::Bit { row: 0, bit: 0 },
    );
    refused(
        &[2, 6, 0, 0, 0, 0, 5, 0, 0, 0],
        BytesReason::Bit { row: 0, bit: 2 },
    );
}

#[test]
fn numbers_and_places() {
    let bytes = read(&CASE_6).unwrap_err();
    let rows = solve(&chain(2, &[(0, 1, 3), (1, 0, 0)])).unwrap_err();
    assert_eq!((bytes.number(), bytes.places()), (14, (0, 1)));
    assert_eq!((rows.number(), rows.places()), (14, (1, 0)));
    assert_eq!(bytes.to_string(), "refused 14 0 1");
    assert_ne!(
        bytes,
        Refusal::Chain(ChainReason::ZeroRate { row: 0, column: 1 })
    );
}

#[test]
fn rates_with_zero_bytes() {
    for rate in [256, 65_536, 16_777_216] {
        let two = chain(2, &[(0, 1, rate), (1, 0, rate)]);
        assert_eq!(read(&write(&two).unwrap()).unwrap().chain, two);
        let half = (2147483648, -32);
        assert_eq!(pairs(&solve(&two).unwrap().shares), [half, half]);
    }
}

#[test]
fn the_old_example_and_its_cleaned_twin() {
    let examples = concat!(env!("CARGO_MANIFEST_DIR"), "/../examples");
    let bytes = |name: &str| std::fs::read(format!("{examples}/{name}.chain")).unwrap();
    let old = read(&bytes("no-way-back")).unwrap_err();
    assert_eq!(old.to_string(), "refused 14 5 0");
    let cleaned = solve(&read(&bytes("no-way-back-cleaned")).unwrap().chain).unwrap();
    assert_eq!(cleaned.bound, 0);
    assert_eq!(pairs(&cleaned.shares[5..]), [(2147483648, -31)]);
    assert!(cleaned.shares[..5].iter().all(|share| share.is_zero()));
}
