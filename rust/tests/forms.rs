//! Stored form 2 beside form 1: bytes worked out by hand, both ways; its refusals in the order met; and what the calls leave in lent memory.
mod common;

use common::{chain, pairs, ring};
use stall::{read, solve, sys, write, write_as, BytesReason, Chain, ChainReason, Form, Refusal};

const SHORT_2: [u8; 9] = [0x82, 2, 2, 3, 0, 1, 1, 1, 0];

fn two() -> Chain {
    chain(2, &[(0, 1, 3), (1, 0, 1)])
}

/// A chain and its files in form 1 and in form 2.
type Kept = (Chain, Vec<u8>, Vec<u8>);

/// Worked out by hand.
fn by_hand() -> Vec<Kept> {
    // No two bytes of a rate alike; short and long ones in every order.
    let three = [
        (0, 1, 0x0201),
        (0, 2, 0x0605_0403),
        (1, 0, 0x0a09_0807),
        (1, 2, 0x0c0b),
        (2, 1, u32::MAX),
    ];
    // Nine states, so two bytes a map: a ring of rate 1,000, and a long move from 0 to 8.
    let mut nine = vec![(0, 1, 1000), (0, 8, 0x0403_0201)];
    let mut nine_1 = vec![9, 2, 1, 0xe8, 3, 0, 0, 1, 2, 3, 4];
    let mut nine_2 = vec![0x89, 2, 1, 2, 0, 0xe8, 3, 1, 2, 3, 4];
    for (i, map) in [4, 8, 16, 32, 64, 128].into_iter().enumerate() {
        nine.push((i as u32 + 1, i as u32 + 2, 1000));
        nine_1.extend([map, 0, 0xe8, 3, 0, 0]);
        nine_2.extend([map, 0, map, 0, 0xe8, 3]);
    }
    nine.extend([(7, 8, 1000), (8, 0, 1000)]);
    nine_1.extend([0, 1, 0xe8, 3, 0, 0, 1, 0, 0xe8, 3, 0, 0]);
    nine_2.extend([0, 1, 0, 1, 0xe8, 3, 1, 0, 1, 0, 0xe8, 3]);
    vec![
        (chain(1, &[]), vec![1, 0], vec![0x81, 0, 0]),
        // Two closed sets: stored all the same.
        (chain(2, &[]), vec![2, 0, 0], vec![0x82, 0, 0, 0, 0]),
        (
            two(),
            vec![2, 2, 3, 0, 0, 0, 1, 1, 0, 0, 0],
            SHORT_2.to_vec(),
        ),
        // The last rate of two bytes and the first of four.
        (
            chain(2, &[(0, 1, 65_535), (1, 0, 65_536)]),
            vec![2, 2, 0xff, 0xff, 0, 0, 1, 0, 0, 1, 0],
            vec![0x82, 2, 2, 0xff, 0xff, 1, 0, 0, 0, 1, 0],
        ),
        (
            chain(3, &three),
            vec![
                3, 6, 1, 2, 0, 0, 3, 4, 5, 6, 5, 7, 8, 9, 10, 11, 12, 0, 0, 2, 255, 255, 255, 255,
            ],
            vec![
                0x83, 6, 2, 1, 2, 3, 4, 5, 6, 5, 4, 7, 8, 9, 10, 11, 12, 2, 0, 255, 255, 255, 255,
            ],
        ),
        (chain(9, &nine), nine_1, nine_2),
    ]
}

/// 64 states and every move, the rate by row and column.
fn full(rate: impl Fn(u32, u32) -> u32) -> Chain {
    let mut moves = Vec::new();
    for i in 0..64 {
        for j in (0..64).filter(|&j| j != i) {
            moves.push((i, j, rate(i, j)));
        }
    }
    chain(64, &moves)
}

fn refused(bytes: &[u8]) -> BytesReason {
    match read(bytes) {
        Err(Refusal::Bytes(reason)) => reason,
        other => panic!("{bytes:?} {other:?}"),
    }
}

#[test]
fn files_by_hand_both_ways() {
    for (chain, one, two) in by_hand() {
        assert_eq!(write(&chain).unwrap(), one);
        for (form, file) in [(Form::One, one), (Form::Two, two)] {
            assert_eq!(write_as(form, &chain).unwrap(), file);
            let reading = read(&file).unwrap();
            assert_eq!((reading.form, &reading.chain), (form, &chain));
            for end in 0..file.len() {
                assert_eq!(refused(&file[..end]), BytesReason::Short);
            }
            assert_eq!(refused(&[&file[..], &[0]].concat()), BytesReason::Extra);
        }
    }
}

#[test]
fn sizes() {
    let size = |form, chain: &Chain| {
        let file = write_as(form, chain).unwrap();
        let reading = read(&file).unwrap();
        assert_eq!((reading.form, &reading.chain), (form, chain));
        file.len()
    };
    let long = full(|i, j| 65_536 + 16_777_259 * (i % 8) + 1021 * i + j);
    assert_eq!(size(Form::One, &long), stall::MAX_BYTES_FORM_1);
    assert_eq!(size(Form::Two, &long), stall::MAX_BYTES);
    assert_eq!(
        (stall::MAX_BYTES_FORM_1, stall::MAX_BYTES),
        (16_641, 17_153)
    );
    let short = full(|i, j| 65_535 - 64 * i - j);
    assert_eq!(size(Form::One, &short), 16_641);
    assert_eq!(size(Form::Two, &short), 1 + 2 * 64 * 8 + 2 * 4032);
    // 2,016 of two bytes and as many of four.
    let mixed = full(|i, j| if i < j { 1 + i } else { 65_536 + j });
    assert_eq!(size(Form::Two, &mixed), 1 + 2 * 64 * 8 + 6 * 2016);
}

#[test]
fn solved_alike() {
    let one = read(&write(&ring()).unwrap()).unwrap();
    let two = read(&write_as(Form::Two, &ring()).unwrap()).unwrap();
    assert_ne!(one, two);
    assert_eq!(one.chain, two.chain);
    assert_eq!(solve(&one.chain), solve(&two.chain));
    assert_eq!(
        pairs(&solve(&two.chain).unwrap().shares),
        [(2454267026, -32), (2454267026, -33), (2454267026, -34)]
    );
}

#[test]
fn first_bytes() {
    for first in 0..=u8::MAX {
        let known = matches!(first, 1..=64 | 129..=192);
        let reason = if known {
            BytesReason::Short
        } else {
            BytesReason::Order
        };
        assert_eq!(refused(&[first]), reason, "{first}");
    }
}

#[test]
fn marks_refused() {
    let mark = |row, bit| BytesReason::Mark { row, bit };
    // Without a rate: at a column, the row itself, the order and beyond; the lowest.
    assert_eq!(refused(&[0x82, 0, 2]), mark(0, 1));
    assert_eq!(refused(&[0x82, 2, 1]), mark(0, 0));
    assert_eq!(refused(&[0x82, 2, 6]), mark(0, 2));
    assert_eq!(refused(&[0x82, 2, 0x82]), mark(0, 7));
    assert_eq!(refused(&[0x82, 0, 6]), mark(0, 1));
    assert_eq!(refused(&[0x81, 0, 1]), mark(0, 0));
    assert_eq!(refused(&[0x82, 2, 2, 3, 0, 1, 2]), mark(1, 1));
    assert_eq!(refused(&[0x89, 2, 0, 0, 1]), mark(0, 8));
    assert_eq!(refused(&[0x89, 2, 1, 2, 3]), mark(0, 9));
    // Below 65,536 and not marked; the column, not the place.
    assert_eq!(refused(&[0x82, 2, 0, 3, 0, 0, 0]), mark(0, 1));
    assert_eq!(refused(&[0x82, 2, 0, 0xff, 0xff, 0, 0]), mark(0, 1));
    assert_eq!(refused(&[0x83, 6, 2, 5, 0, 7, 0, 0, 0]), mark(0, 2));
    assert_eq!(refused(&[0x82, 2, 2, 3, 0, 1, 0, 1, 0, 0, 0]), mark(1, 0));
    // The first rate comes before a cut in the second.
    assert_eq!(refused(&[0x83, 6, 0, 5, 0, 0, 0, 7]), mark(0, 1));
}

#[test]
fn beside_the_marks() {
    let bit = |row, bit| BytesReason::Bit { row, bit };
    let zero = |row, column| BytesReason::ZeroRate { row, column };
    // 9 comes before a second map that is missing, or has a mark without its rate.
    assert_eq!(refused(&[0x82, 3]), bit(0, 0));
    assert_eq!(refused(&[0x82, 4]), bit(0, 2));
    assert_eq!(refused(&[0x82, 1, 6]), bit(0, 0));
    assert_eq!(refused(&[0x82, 2, 2, 3, 0, 2]), bit(1, 1));
    // A zero, marked or not, is 14.
    assert_eq!(refused(&[0x82, 2, 2, 0, 0]), zero(0, 1));
    assert_eq!(refused(&[0x82, 2, 0, 0, 0, 0, 0]), zero(0, 1));
    assert_eq!(refused(&[0x83, 6, 2, 5, 0, 0, 0, 0, 0]), zero(0, 2));
    // A cut within a rate comes before its value.
    assert_eq!(refused(&[0x82, 2, 2, 0]), BytesReason::Short);
    assert_eq!(refused(&[0x82, 2, 0, 3, 0, 0]), BytesReason::Short);
    assert_eq!(refused(&[0x89, 2, 0, 2]), BytesReason::Short);
    assert_eq!(refused(&[0x81, 0, 0, 0]), BytesReason::Extra);
}

#[test]
fn chains_refused_alike() {
    let zero = ChainReason::ZeroRate { row: 0, column: 1 };
    let columns = ChainReason::Columns { row: 1, place: 1 };
    let broken = |columns, rates| Chain {
        columns,
        rates,
        ..two()
    };
    for form in [Form::One, Form::Two] {
        let told = |chain: &Chain| match write_as(form, chain) {
            Err(Refusal::Chain(reason)) => reason,
            other => panic!("{other:?}"),
        };
        for order in [0, 65, 129, usize::MAX] {
            assert_eq!(told(&Chain { order, ..two() }), ChainReason::Order);
        }
        assert_eq!(told(&broken(vec![1, 0], vec![3])), ChainReason::Lengths);
        let starts = vec![0, 1];
        assert_eq!(told(&Chain { starts, ..two() }), ChainReason::Starts);
        assert_eq!(told(&broken(vec![1, 1], vec![0, 1])), columns);
        assert_eq!(told(&broken(vec![1, 0], vec![0, 1])), zero);
    }
}

#[test]
fn numbers_and_places() {
    let mark = read(&[0x82, 2, 6]).unwrap_err();
    assert_eq!((mark.number(), mark.places()), (16, (0, 2)));
    assert_eq!(mark.to_string(), "refused 16 0 2");
    assert_ne!(mark, Refusal::Bytes(BytesReason::Bit { row: 0, bit: 2 }));
}

/// What stands in memory that a call may not touch.
const MARK: u8 = 0x5a;
const MARKS: u32 = 0x5a5a_5a5a;

/// Reads with so many places lent for starts, columns and rates; what is returned, the answer places, and all the memory.
fn read_into(bytes: &[u8], lent: [usize; 3]) -> (u32, [usize; 3], [[u32; 6]; 3]) {
    let (mut memory, mut answer) = ([[MARKS; 6]; 3], [usize::MAX; 3]);
    let [starts, columns, rates] = &mut memory;
    // SAFETY: each pointer is that of one live slice, which has at least so many places; the mutable ones are different arrays.
    let number = unsafe {
        sys::stall_read(
            bytes.as_ptr(),
            bytes.len(),
            starts[..lent[0]].as_mut_ptr(),
            lent[0],
            columns[..lent[1]].as_mut_ptr(),
            lent[1],
            rates[..lent[2]].as_mut_ptr(),
            lent[2],
            answer.as_mut_ptr(),
            answer.len(),
        )
    };
    (number, answer, memory)
}

#[test]
fn a_reading_in_lent_memory() {
    let unchanged = [[MARKS; 6]; 3];
    let read_there = [
        [0, 1, 2, MARKS, MARKS, MARKS],
        [1, 0, MARKS, MARKS, MARKS, MARKS],
        [3, 1, MARKS, MARKS, MARKS, MARKS],
    ];
    for lent in [[3, 2, 2], [6, 6, 6]] {
        assert_eq!(read_into(&SHORT_2, lent), (0, [2, 2, 2], read_there));
    }
    for lent in [[2, 2, 2], [3, 1, 2], [3, 2, 1], [0, 0, 0]] {
        assert_eq!(read_into(&SHORT_2, lent), (5, [0, 0, 1], unchanged));
    }
    // The second row is at fault, after a sound first one; 5 comes last.
    for lent in [[6, 6, 6], [0, 0, 0]] {
        let loose = [0x82, 2, 2, 3, 0, 1, 2];
        assert_eq!(read_into(&loose, lent), (16, [1, 1, 1], unchanged));
        let unmarked = [0x82, 2, 2, 3, 0, 1, 0, 1, 0, 0, 0];
        assert_eq!(read_into(&unmarked, lent), (16, [1, 0, 1], unchanged));
        assert_eq!(read_into(&SHORT_2[..8], lent), (8, [0, 0, 1], unchanged));
    }
}

#[test]
fn a_writing_in_lent_memory() {
    let (chain, zero) = (two(), chain(2, &[(0, 1, 3), (1, 0, 0)]));
    let written = |chain: &Chain, lent: usize| {
        let (mut out, mut answer) = ([MARK; 12], [usize::MAX; 3]);
        // SAFETY: each pointer is that of one live slice, which has at least so many places; the mutable ones are different arrays.
        let number = unsafe {
            sys::stall_write_short(
                chain.order,
                chain.starts.as_ptr(),
                chain.starts.len(),
                chain.columns.as_ptr(),
                chain.columns.len(),
                chain.rates.as_ptr(),
                chain.rates.len(),
                out[..lent].as_mut_ptr(),
                lent,
                answer.as_mut_ptr(),
                answer.len(),
            )
        };
        (number, answer, out)
    };
    let mut expected = [MARK; 12];
    expected[..9].copy_from_slice(&SHORT_2);
    for lent in 0..=12 {
        let due = if lent < 9 {
            (5, [0, 0, 0], [MARK; 12])
        } else {
            (0, [9, 0, 0], expected)
        };
        assert_eq!(written(&chain, lent), due);
        assert_eq!(written(&zero, lent), (14, [1, 0, 0], [MARK; 12]));
    }
}
