//! The document's cases, refusals of every kind that a chain or bytes can meet here, round trips and the conversions.
mod common;

use common::{chain, pairs, ring};
use stall::{read, solve, solve_groups, write, BytesReason, Chain, ChainReason, Refusal, Scaled};

const CASE_2: [u8; 11] = [2, 2, 3, 0, 0, 0, 1, 1, 0, 0, 0];

fn refused(input: &Chain) -> ChainReason {
    match solve(input) {
        Err(Refusal::Chain(reason)) => reason,
        other => panic!("{other:?}"),
    }
}

fn refused_table(input: &Chain, table: &[[u32; 3]]) -> ChainReason {
    match solve_groups(input, table) {
        Err(Refusal::Chain(reason)) => reason,
        other => panic!("{other:?}"),
    }
}

fn refused_bytes(bytes: &[u8]) -> BytesReason {
    match read(bytes) {
        Err(Refusal::Bytes(reason)) => reason,
        other => panic!("{other:?}"),
    }
}

#[test]
fn case_1() {
    let solution = solve(&chain(1, &[])).unwrap();
    assert_eq!(solution.bound, 0);
    assert_eq!(pairs(&solution.weights), [(2147483648, -31)]);
    assert_eq!(pairs(&solution.shares), [(2147483648, -31)]);
}

#[test]
fn case_2_read_solved_and_written() {
    let two = read(&CASE_2).unwrap().chain;
    assert_eq!(two, chain(2, &[(0, 1, 3), (1, 0, 1)]));
    let solution = solve(&two).unwrap();
    assert_eq!(solution.bound, 8);
    assert_eq!(
        pairs(&solution.weights),
        [(2863311531, -33), (2147483648, -31)]
    );
    assert_eq!(
        pairs(&solution.shares),
        [(2147483648, -33), (3221225472, -32)]
    );
    assert_eq!(write(&two).unwrap(), CASE_2);
}

#[test]
fn cases_3_and_4() {
    let ring = solve(&ring()).unwrap();
    assert_eq!(ring.bound, 28);
    assert_eq!(
        pairs(&ring.weights),
        [(2147483648, -29), (2147483648, -30), (2147483648, -31)]
    );
    assert_eq!(
        pairs(&ring.shares),
        [(2454267026, -32), (2454267026, -33), (2454267026, -34)]
    );
    let rare = solve(&chain(2, &[(0, 1, 1), (1, 0, u32::MAX)])).unwrap();
    assert_eq!(pairs(&rare.weights), [(4294967295, 0), (2147483648, -31)]);
    assert_eq!(pairs(&rare.shares), [(4294967295, -32), (2147483648, -63)]);
}

#[test]
fn case_10() {
    let moves: Vec<_> = (0..64)
        .flat_map(|i| (0..64).filter(move |&j| j != i).map(move |j| (i, j, 1)))
        .collect();
    let full = chain(64, &moves);
    assert_eq!(solve(&full).unwrap().bound, 182_784);
    let bytes = write(&full).unwrap();
    assert_eq!(bytes.len(), stall::MAX_BYTES_FORM_1);
    assert_eq!(read(&bytes).unwrap().chain, full);
}

#[test]
fn case_3_by_group() {
    let solved = solve_groups(&ring(), &[[0, 1, 3], [2, 2, 15]]).unwrap();
    assert_eq!(solved.solution, solve(&ring()).unwrap());
    let mut expected = [(0, 0); stall::GROUPS];
    expected[3] = (3681400539, -32);
    expected[15] = (2454267026, -34);
    assert_eq!(pairs(&solved.groups), expected);
}

#[test]
fn summed_from_the_lowest_state_up() {
    // Row by row, or from the highest state down, the last bit would be another.
    let uneven = chain(3, &[(0, 1, 3), (1, 2, 1), (2, 0, 1)]);
    let solved = solve_groups(&uneven, &[[1, 2, 7], [0, 0, 7]]).unwrap();
    assert_eq!(pairs(&solved.groups[7..8]), [(4294967295, -32)]);
}

#[test]
fn the_station_by_group() {
    let examples = concat!(env!("CARGO_MANIFEST_DIR"), "/../examples");
    let station = read(&std::fs::read(format!("{examples}/station.chain")).unwrap())
        .unwrap()
        .chain;
    let text = std::fs::read_to_string(format!("{examples}/station.groups")).unwrap();
    let rows = text.lines().filter_map(|line| {
        let mut numbers = line.split('#').next()?.split_whitespace();
        let row = [numbers.next()?, numbers.next()?, numbers.next()?];
        Some(row.map(|number| number.parse().unwrap()))
    });
    let table: Vec<[u32; 3]> = rows.collect();
    assert_eq!(table.len(), 3);
    let groups = solve_groups(&station, &table).unwrap().groups;
    // As the model in tests/ has them.
    assert_eq!(
        pairs(&groups[..4]),
        [
            (2154789548, -33),
            (3208543073, -32),
            (2311538943, -40),
            (0, 0)
        ]
    );
}

#[test]
fn tables_refused() {
    let table = |rows: &[[u32; 3]]| refused_table(&ring(), rows);
    let bad_row = |row| ChainReason::TableRow { row };
    assert_eq!(table(&[[0, 1, 3], [2, 1, 0]]), bad_row(1));
    assert_eq!(table(&[[0, 1, 3], [2, 3, 0]]), bad_row(1));
    assert_eq!(table(&[[3, 3, 0], [0, 2, 16]]), bad_row(0));
    assert_eq!(table(&[[0, 2, 16]]), bad_row(0));
    assert_eq!(table(&[[0, 1, u32::MAX], [0, 0, 0]]), bad_row(0));
    assert_eq!(
        table(&[[0, 1, 0], [1, 2, 0]]),
        ChainReason::InTwoRows { state: 1 }
    );
    assert_eq!(
        table(&[[2, 2, 0], [2, 2, 0]]),
        ChainReason::InTwoRows { state: 2 }
    );
    assert_eq!(
        table(&[[0, 0, 0], [2, 2, 0]]),
        ChainReason::InNoRow { state: 1 }
    );
    assert_eq!(table(&[]), ChainReason::InNoRow { state: 0 });
    // The chain's rules come before the table, the table before 6.
    let apart = chain(2, &[]);
    assert_eq!(
        refused_table(&apart, &[[0, 0, 0]]),
        ChainReason::InNoRow { state: 1 }
    );
    assert_eq!(
        refused_table(&apart, &[[0, 1, 0]]),
        ChainReason::ClosedSets {
            first: 0,
            second: 1
        }
    );
    for order in [0, 65, usize::MAX] {
        assert_eq!(
            refused_table(&Chain { order, ..ring() }, &[[0, 0, 16]]),
            ChainReason::Order
        );
    }
    assert_eq!(
        refused_table(
            &Chain {
                columns: vec![1, 1, 0],
                ..ring()
            },
            &[[0, 0, 16]]
        ),
        ChainReason::Columns { row: 1, place: 1 }
    );
}

#[test]
fn chains_refused() {
    let two = chain(2, &[(0, 1, 3), (1, 0, 1)]);
    for order in [0, 65, usize::MAX] {
        assert_eq!(
            refused(&Chain {
                order,
                ..two.clone()
            }),
            ChainReason::Order
        );
    }
    assert_eq!(
        refused(&Chain {
            rates: vec![3],
            ..two.clone()
        }),
        ChainReason::Lengths
    );
    assert_eq!(
        refused(&Chain {
            starts: vec![0, 2],
            ..two.clone()
        }),
        ChainReason::Starts
    );
    assert_eq!(
        refused(&Chain {
            starts: vec![],
            ..two.clone()
        }),
        ChainReason::Starts
    );
    assert_eq!(
        refused(&Chain {
            columns: vec![1, 1],
            ..two.clone()
        }),
        ChainReason::Columns { row: 1, place: 1 }
    );
    let apart = chain(2, &[]);
    assert_eq!(
        refused(&apart),
        ChainReason::ClosedSets {
            first: 0,
            second: 1
        }
    );
    // Stored all the same, and read back.
    assert_eq!(read(&write(&apart).unwrap()).unwrap().chain, apart);
    assert_eq!(
        write(&Chain { order: 65, ..two }),
        Err(Refusal::Chain(ChainReason::Order))
    );
}

#[test]
fn bytes_refused() {
    assert_eq!(refused_bytes(&[]), BytesReason::Short);
    assert_eq!(refused_bytes(&[0]), BytesReason::Order);
    assert_eq!(refused_bytes(&[65]), BytesReason::Order);
    assert_eq!(refused_bytes(&[64]), BytesReason::Short);
    assert_eq!(refused_bytes(&CASE_2[..3]), BytesReason::Short);
    assert_eq!(refused_bytes(&[1, 1]), BytesReason::Bit { row: 0, bit: 0 });
    assert_eq!(refused_bytes(&[1, 0, 0]), BytesReason::Extra);
    for end in 0..CASE_2.len() {
        assert_eq!(refused_bytes(&CASE_2[..end]), BytesReason::Short);
    }
}

#[test]
fn numbers_and_places() {
    let traps = solve(&chain(4, &[(0, 1, 1), (1, 0, 1), (2, 3, 1)])).unwrap_err();
    assert_eq!((traps.number(), traps.places()), (6, (0, 3)));
    assert_eq!(traps.to_string(), "refused 6 0 3");
    let bit = read(&[2, 2, 3, 0, 0, 0, 4]).unwrap_err();
    assert_eq!((bit.number(), bit.places()), (9, (1, 2)));
    assert_eq!(read(&CASE_2[..3]).unwrap_err().to_string(), "refused 8 0 0");
    let told = |rows: &[[u32; 3]]| solve_groups(&ring(), rows).unwrap_err().to_string();
    assert_eq!(told(&[[0, 1, 0]]), "refused 11 2 0");
    assert_eq!(told(&[[0, 2, 0], [1, 2, 0]]), "refused 12 1 0");
    assert_eq!(told(&[[0, 2, 0], [1, 2, 16]]), "refused 13 1 0");
}

#[test]
fn a_share_too_small_for_an_f64() {
    let mut moves = Vec::new();
    for i in 0..64u32 {
        if i > 0 {
            moves.push((i, i - 1, 1));
        }
        if i < 63 {
            moves.push((i, i + 1, u32::MAX));
        }
    }
    let solution = solve(&chain(64, &moves)).unwrap();
    assert_eq!(solution.shares[0].to_f64(), 0.0);
    // The exact ratio of neighbours is 2^32 - 1.
    let expected = -63.0 * f64::from(u32::MAX).log10();
    assert!((solution.shares[0].log10() - expected).abs() < 1e-3);
    assert!((solution.shares[63].to_f64() - 1.0).abs() < 1e-3);
    assert_eq!(solution.weights[63].to_f64(), 1.0);
}

#[test]
fn conversions() {
    assert_eq!(Scaled { m: 3 << 30, e: -32 }.to_f64(), 0.75);
    assert_eq!(Scaled { m: 1 << 31, e: -31 }.log10(), 0.0);
    assert_eq!(
        Scaled {
            m: 1 << 31,
            e: -1105
        }
        .to_f64(),
        f64::from_bits(1)
    );
    assert_eq!(
        Scaled {
            m: 1 << 31,
            e: -16384
        }
        .to_f64(),
        0.0
    );
    assert_eq!(
        Scaled {
            m: u32::MAX,
            e: 991
        }
        .to_f64(),
        f64::from(u32::MAX) * 2f64.powi(991)
    );
    assert_eq!(
        Scaled {
            m: 1 << 31,
            e: 16383
        }
        .to_f64(),
        f64::INFINITY
    );
    let zero = Scaled { m: 0, e: 0 };
    assert_eq!((zero.to_f64(), zero.log10()), (0.0, f64::NEG_INFINITY));
    assert!(zero.is_zero());
    let rare = Scaled {
        m: 1 << 31,
        e: -16384,
    };
    assert!(!rare.is_zero() && rare.to_f64() == 0.0);
}

#[test]
fn at_once_in_four_threads() {
    let expected = solve(&read(&CASE_2).unwrap().chain).unwrap();
    std::thread::scope(|scope| {
        for _ in 0..4 {
            scope.spawn(|| {
                for _ in 0..1000 {
                    assert_eq!(solve(&read(&CASE_2).unwrap().chain).unwrap(), expected);
                }
            });
        }
    });
}
