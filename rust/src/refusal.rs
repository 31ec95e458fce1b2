//! Why an input is turned away: whose fault it is, with that side's own reason inside.
use std::error::Error;
use std::fmt;

/// Why a chain is turned away.
#[derive(Clone, Copy, Debug, PartialEq, Eq, Hash)]
pub enum ChainReason {
    /// 1: the order is 0 or above 64.
    Order,
    /// 2: columns and rates differ in length.
    Lengths,
    /// 3: a rule of the row starts is broken.
    Starts,
    /// 4: a rule of the columns is broken, first at this entry.
    Columns { row: usize, place: usize },
    /// 5: a lent buffer is shorter than needed. The calls of this crate lend enough and never meet it.
    Room,
    /// 6: the chain has two or more closed sets; these are the two lowest of the sets' lowest states.
    ClosedSets { first: usize, second: usize },
    /// 11: a state is in no row of the group table; this is the lowest.
    InNoRow { state: usize },
    /// 12: a state is in two rows of the group table, or more; this is the lowest.
    InTwoRows { state: usize },
    /// 13: a row of the group table is cut short, has a first state above its last, a state of the order or more, or a group above
    /// 15; this is the lowest.
    TableRow { row: usize },
    /// 14: a rate is 0, first at this entry.
    ZeroRate { row: usize, column: usize },
    /// 15: the joint chain of two parts would have more than 64 states.
    JointOrder,
}

/// Why stored bytes are turned away.
#[derive(Clone, Copy, Debug, PartialEq, Eq, Hash)]
pub enum BytesReason {
    /// 1: the first byte is that of no form: 0, 65 to 128, or 193 and above.
    Order,
    /// 5: a lent buffer is shorter than needed. The calls of this crate lend enough and never meet it.
    Room,
    /// 8: the bytes end early.
    Short,
    /// 9: a bit of a row's map stands at its own row, or at the order or above.
    Bit { row: usize, bit: usize },
    /// 10: bytes are left over.
    Extra,
    /// 14: a rate is 0, first at this entry.
    ZeroRate { row: usize, column: usize },
    /// 16: in form 2, a bit of a row's second map stands without its rate, or a rate below 65,536 without its bit.
    Mark { row: usize, bit: usize },
}

/// A refusal.
#[derive(Clone, Copy, Debug, PartialEq, Eq, Hash)]
pub enum Refusal {
    Chain(ChainReason),
    Bytes(BytesReason),
}

impl Refusal {
    /// The refusal's number: 1 to 6, or 8 to 16.
    pub fn number(self) -> u32 {
        match self {
            Refusal::Chain(reason) => match reason {
                ChainReason::Order => 1,
                ChainReason::Lengths => 2,
                ChainReason::Starts => 3,
                ChainReason::Columns { .. } => 4,
                ChainReason::Room => 5,
                ChainReason::ClosedSets { .. } => 6,
                ChainReason::InNoRow { .. } => 11,
                ChainReason::InTwoRows { .. } => 12,
                ChainReason::TableRow { .. } => 13,
                ChainReason::ZeroRate { .. } => 14,
                ChainReason::JointOrder => 15,
            },
            Refusal::Bytes(reason) => match reason {
                BytesReason::Order => 1,
                BytesReason::Room => 5,
                BytesReason::Short => 8,
                BytesReason::Bit { .. } => 9,
                BytesReason::Extra => 10,
                BytesReason::ZeroRate { .. } => 14,
                BytesReason::Mark { .. } => 16,
            },
        }
    }

    /// The refusal's two places, 0 where it names none.
    pub fn places(self) -> (usize, usize) {
        match self {
            Refusal::Chain(ChainReason::Columns { row, place }) => (row, place),
            Refusal::Chain(ChainReason::ClosedSets { first, second }) => (first, second),
            Refusal::Chain(ChainReason::InNoRow { state } | ChainReason::InTwoRows { state }) => {
                (state, 0)
            }
            Refusal::Chain(ChainReason::TableRow { row }) => (row, 0),
            Refusal::Chain(ChainReason::ZeroRate { row, column })
            | Refusal::Bytes(BytesReason::ZeroRate { row, column }) => (row, column),
            Refusal::Bytes(BytesReason::Bit { row, bit } | BytesReason::Mark { row, bit }) => {
                (row, bit)
            }
            _ => (0, 0),
        }
    }

    /// From what a call returned and its first three answer places. The calls' contracts leave no other numbers and sides.
    pub(crate) fn told(number: u32, answer: [usize; 3]) -> Refusal {
        let [first, second, side] = answer;
        match (side, number) {
            (0, 1) => Refusal::Chain(ChainReason::Order),
            (0, 2) => Refusal::Chain(ChainReason::Lengths),
            (0, 3) => Refusal::Chain(ChainReason::Starts),
            (0, 4) => Refusal::Chain(ChainReason::Columns {
                row: first,
                place: second,
            }),
            (0, 5) => Refusal::Chain(ChainReason::Room),
            (0, 6) => Refusal::Chain(ChainReason::ClosedSets { first, second }),
            (0, 11) => Refusal::Chain(ChainReason::InNoRow { state: first }),
            (0, 12) => Refusal::Chain(ChainReason::InTwoRows { state: first }),
            (0, 13) => Refusal::Chain(ChainReason::TableRow { row: first }),
            (0, 14) => Refusal::Chain(ChainReason::ZeroRate {
                row: first,
                column: second,
            }),
            (0, 15) => Refusal::Chain(ChainReason::JointOrder),
            (1, 1) => Refusal::Bytes(BytesReason::Order),
            (1, 5) => Refusal::Bytes(BytesReason::Room),
            (1, 8) => Refusal::Bytes(BytesReason::Short),
            (1, 9) => Refusal::Bytes(BytesReason::Bit {
                row: first,
                bit: second,
            }),
            (1, 10) => Refusal::Bytes(BytesReason::Extra),
            (1, 14) => Refusal::Bytes(BytesReason::ZeroRate {
                row: first,
                column: second,
            }),
            (1, 16) => Refusal::Bytes(BytesReason::Mark {
                row: first,
                bit: second,
            }),
            _ => unreachable!("the library's contract has no refusal {number} of side {side}"),
        }
    }
}

impl fmt::Display for Refusal {
    fn fmt(&self, f: &mut fmt::Formatter<'_>) -> fmt::Result {
        let (first, second) = self.places();
        write!(f, "refused {} {} {}", self.number(), first, second)
    }
}

impl Error for Refusal {}

/// Whose refusal a joining gives.
#[derive(Clone, Copy, Debug, PartialEq, Eq, Hash)]
pub enum Part {
    /// The joint chain's: the two parts are sound, and it would have more than 64 states.
    Joint,
    First,
    Second,
}

/// Why two chains are not joined: a refusal, and whose it is. The places of a part's refusal are those in that part.
#[derive(Clone, Copy, Debug, PartialEq, Eq, Hash)]
pub struct JoinRefusal {
    pub part: Part,
    pub refusal: Refusal,
}

impl JoinRefusal {
    /// From what a joining returned and its four answer places. Its contract leaves no other part.
    pub(crate) fn told(number: u32, answer: [usize; 4]) -> JoinRefusal {
        let [first, second, side, part] = answer;
        let part = match part {
            0 => Part::Joint,
            1 => Part::First,
            2 => Part::Second,
            _ => unreachable!("the library's contract has no part {part}"),
        };
        JoinRefusal {
            part,
            refusal: Refusal::told(number, [first, second, side]),
        }
    }
}

impl fmt::Display for JoinRefusal {
    fn fmt(&self, f: &mut fmt::Formatter<'_>) -> fmt::Result {
        match self.part {
            Part::Joint => write!(f, "{}", self.refusal),
            Part::First => write!(f, "first part: {}", self.refusal),
            Part::Second => write!(f, "second part: {}", self.refusal),
        }
    }
}

impl Error for JoinRefusal {
    fn source(&self) -> Option<&(dyn Error + 'static)> {
        Some(&self.refusal)
    }
}
