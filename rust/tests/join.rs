//! Two stations side by side: the joint chain, its shares, and whose refusal it is.
mod common;

use common::{chain, pairs, ring};
use stall::{join, read, solve, write, Chain, ChainReason, JoinRefusal, Part, Refusal};

fn two() -> Chain {
    chain(2, &[(0, 1, 3), (1, 0, 1)])
}

/// The reason, and whose it is.
fn refused(first: &Chain, second: &Chain) -> (Part, ChainReason) {
    match join(first, second) {
        Err(JoinRefusal {
            part,
            refusal: Refusal::Chain(reason),
        }) => (part, reason),
        other => panic!("{other:?}"),
    }
}

#[test]
fn case_2_beside_itself_and_beside_case_3() {
    let joint = join(&two(), &two()).unwrap();
    assert_eq!(joint.order, 4);
    assert_eq!(joint.starts, [0, 2, 4, 6, 8]);
    assert_eq!(joint.columns, [1, 2, 0, 3, 0, 3, 1, 2]);
    assert_eq!(joint.rates, [3, 3, 1, 3, 1, 3, 1, 1]);
    let joint = join(&two(), &ring()).unwrap();
    assert_eq!(joint.order, 6);
    assert_eq!(joint.starts, [0, 2, 4, 6, 8, 10, 12]);
    assert_eq!(joint.columns, [1, 3, 2, 4, 0, 5, 0, 4, 1, 5, 2, 3]);
    assert_eq!(joint.rates, [2, 3, 4, 3, 8, 3, 1, 2, 1, 4, 1, 8]);
}

#[test]
fn one_state_beside_a_chain() {
    let one = chain(1, &[]);
    assert_eq!(join(&one, &ring()).unwrap(), ring());
    assert_eq!(join(&ring(), &one).unwrap(), ring());
    let large = chain(64, &[(63, 0, u32::MAX)]);
    assert_eq!(join(&one, &large).unwrap(), large);
    assert_eq!(join(&large, &one).unwrap(), large);
}

#[test]
fn shares_are_products() {
    // 1/4 and 3/4 beside 4/7, 2/7 and 1/7.
    let shares = |first: &Chain, second: &Chain| -> Vec<f64> {
        let joint = join(first, second).unwrap();
        solve(&joint)
            .unwrap()
            .shares
            .iter()
            .map(|share| share.to_f64())
            .collect()
    };
    let expected = [4, 2, 1, 12, 6, 3].map(|part| f64::from(part) / 28.0);
    for (share, due) in shares(&two(), &ring()).into_iter().zip(expected) {
        assert!((share / due - 1.0).abs() < 1e-6, "{share} {due}");
    }
    // 1/16, 3/16, 3/16 and 9/16, the first two rounded on the way, as the model in tests/ has them.
    let twice = solve(&join(&two(), &two()).unwrap()).unwrap();
    assert_eq!(twice.bound, 64);
    assert_eq!(
        pairs(&twice.shares),
        [
            (4294967295, -36),
            (3221225471, -34),
            (3221225472, -34),
            (2415919104, -32)
        ]
    );
    let left = chain(3, &[(0, 1, 3), (1, 0, 1), (2, 0, 5)]);
    let joint = solve(&join(&left, &two()).unwrap()).unwrap();
    assert_eq!(joint.bound, 64);
    assert!(joint.shares[4].is_zero() && joint.shares[5].is_zero());
    assert_eq!(joint.shares[..4], twice.shares);
}

#[test]
fn without_an_answer() {
    let apart = chain(2, &[]);
    let joint = join(&apart, &two()).unwrap();
    assert_eq!(
        joint,
        chain(4, &[(0, 1, 3), (1, 0, 1), (2, 3, 3), (3, 2, 1)])
    );
    assert_eq!(solve(&joint).unwrap_err().to_string(), "refused 6 0 2");
}

#[test]
fn whose_refusal() {
    let zero = chain(2, &[(0, 1, 0), (1, 0, 5)]);
    let large = chain(64, &[]);
    let reason = ChainReason::ZeroRate { row: 0, column: 1 };
    assert_eq!(refused(&zero, &two()), (Part::First, reason));
    assert_eq!(refused(&two(), &zero), (Part::Second, reason));
    // The first part's comes first; a part's before 15.
    let broken = Chain {
        columns: vec![1, 1],
        ..two()
    };
    let columns = ChainReason::Columns { row: 1, place: 1 };
    assert_eq!(refused(&broken, &zero), (Part::First, columns));
    assert_eq!(refused(&zero, &broken), (Part::First, reason));
    assert_eq!(refused(&large, &zero), (Part::Second, reason));
    assert_eq!(refused(&large, &broken), (Part::Second, columns));
    for order in [0, 65, usize::MAX] {
        let other = Chain { order, ..two() };
        assert_eq!(refused(&other, &zero), (Part::First, ChainReason::Order));
        assert_eq!(refused(&large, &other), (Part::Second, ChainReason::Order));
    }
    let short = Chain {
        rates: vec![0],
        ..two()
    };
    assert_eq!(
        refused(&two(), &short),
        (Part::Second, ChainReason::Lengths)
    );
    let starts = Chain {
        starts: vec![0, 1],
        ..two()
    };
    assert_eq!(refused(&starts, &large), (Part::First, ChainReason::Starts));
    assert_eq!(
        refused(&large, &large),
        (Part::Joint, ChainReason::JointOrder)
    );
    assert_eq!(
        refused(&chain(5, &[]), &chain(13, &[])),
        (Part::Joint, ChainReason::JointOrder)
    );
    assert_eq!(join(&chain(8, &[]), &chain(8, &[])).unwrap().order, 64);
}

#[test]
fn in_words() {
    let told = |first: &Chain, second: &Chain| join(first, second).unwrap_err().to_string();
    let (zero, large) = (chain(3, &[(1, 2, 0)]), chain(64, &[]));
    assert_eq!(told(&zero, &two()), "first part: refused 14 1 2");
    assert_eq!(told(&two(), &zero), "second part: refused 14 1 2");
    assert_eq!(told(&two(), &large), "refused 15 0 0");
    let refusal = join(&two(), &large).unwrap_err();
    assert_eq!(
        (refusal.refusal.number(), refusal.refusal.places()),
        (15, (0, 0))
    );
    let source = std::error::Error::source(&refusal).unwrap();
    assert_eq!(source.to_string(), "refused 15 0 0");
}

#[test]
fn the_station_beside_itself() {
    let examples = concat!(env!("CARGO_MANIFEST_DIR"), "/../examples");
    let bytes = |name: &str| std::fs::read(format!("{examples}/{name}.chain")).unwrap();
    let station = read(&bytes("station")).unwrap().chain;
    let joint = join(&station, &station).unwrap();
    assert_eq!(write(&joint).unwrap(), bytes("two-stations"));
    let (alone, both) = (solve(&station).unwrap(), solve(&joint).unwrap());
    assert_eq!(both.bound, 33_600);
    for i in 0..6 {
        for j in 0..6 {
            let product = alone.shares[i].to_f64() * alone.shares[j].to_f64();
            assert!((both.shares[6 * i + j].to_f64() / product - 1.0).abs() < 2e-5);
        }
    }
}
