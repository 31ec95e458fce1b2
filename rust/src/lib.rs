//! Safe calls of the stall calculator: the weights and shares of a chain of at most 64 states, the shares of groups of them, and the
//! joint chain of two stations side by side.
//!
//! The library below is proved: whatever it is given, it answers with results whose distance from the exact ones is bounded, or
//! with the first refusal that applies. This crate only lends it memory and turns its answers into Rust's types; it is tested and
//! not proved.
//!
//! ```
//! let chain = stall::read(&[2, 2, 3, 0, 0, 0, 1, 1, 0, 0, 0])?.chain;
//! let solution = stall::solve(&chain)?;
//! assert_eq!(solution.shares[1].to_f64(), 0.75);
//! # Ok::<(), stall::Refusal>(())
//! ```
//!
//! A non-empty set of states is closed if each of them reaches all the others of the set and nothing outside it. A chain has an
//! answer if it has exactly one closed set. States outside, such as those met only after power-on, are left for good: their weights
//! and shares are Zero.
//!
//! ```
//! // 0 to 1, 1 to 0 and 2 to 0, all rate 1: state 2 is left once and never met again.
//! let chain = stall::read(&[3, 2, 1, 0, 0, 0, 1, 1, 0, 0, 0, 1, 1, 0, 0, 0])?.chain;
//! let shares = stall::solve(&chain)?.shares;
//! assert_eq!(shares[0].to_f64(), 0.5);
//! assert!(shares[2].is_zero());
//! # Ok::<(), stall::Refusal>(())
//! ```
//!
//! A chain has no rate of 0: where there is no move there is no entry. Old stored chains with such entries are refused by 14; the
//! program `clean` rewrites them without.
//!
//! ```
//! // 0 to 1 rate 0, 1 to 0 rate 5.
//! let refusal = stall::read(&[2, 2, 0, 0, 0, 0, 1, 5, 0, 0, 0]).unwrap_err();
//! assert_eq!(refusal.to_string(), "refused 14 0 1");
//! ```
//!
//! A chain is stored in one of two forms. `read` takes both and says which it was; `write` stores in form 1, `write_as` in either.
mod refusal;
mod scaled;
mod stored;
pub mod sys;

pub use refusal::{BytesReason, ChainReason, JoinRefusal, Part, Refusal};
pub use scaled::Scaled;
pub use stored::{read, write, write_as, Form, Reading};

/// The largest order.
pub const MAX_ORDER: usize = 64;
/// The most entries of a chain.
pub const MAX_ENTRIES: usize = MAX_ORDER * (MAX_ORDER - 1);
/// The most bytes of a stored chain, in either form.
pub const MAX_BYTES: usize = 17_153;
/// The most bytes of a stored chain in form 1.
pub const MAX_BYTES_FORM_1: usize = 16_641;
/// How many groups there are.
pub const GROUPS: usize = 16;

/// A chain in rows: the entries of row i stand at places `starts[i]` up to, not including, `starts[i + 1]` of `columns` and
/// `rates`. Any contents are allowed here; the calls refuse what is no chain.
#[derive(Clone, Debug, PartialEq, Eq, Hash)]
pub struct Chain {
    pub order: usize,
    /// `order + 1` places: the first is 0, none is below the one before, the last is the number of entries.
    pub starts: Vec<u32>,
    /// Within a row these rise strictly, are below the order and never equal the row.
    pub columns: Vec<u32>,
    /// One for each column, each above 0.
    pub rates: Vec<u32>,
}

/// What solving gives for an accepted chain.
#[derive(Clone, Debug, PartialEq, Eq, Hash)]
pub struct Solution {
    /// The bound count K(r) of the r states of the closed set: with F = 2^32 / (2^32 - 1), each weight lies within K(r) factors F
    /// of the exact one, each share within 2 K(r) + r.
    pub bound: usize,
    /// The weight of each state; that of the closed set's last state is 1, that of a state outside Zero.
    pub weights: Vec<Scaled>,
    /// The share of each state; that of a state outside the closed set is Zero.
    pub shares: Vec<Scaled>,
}

/// What solving by group gives for an accepted chain and table.
#[derive(Clone, Debug, PartialEq, Eq, Hash)]
pub struct GroupSolution {
    /// What `solve` gives.
    pub solution: Solution,
    /// The share of each group, the sum of the shares of its states; Zero for a group without states in the closed set. With
    /// F = 2^32 / (2^32 - 1), each lies within 2 K(r) + 2 n factors F of the exact one, n being the order of the chain.
    pub groups: [Scaled; GROUPS],
}

/// Lent places for scaled numbers.
struct Places {
    m: Vec<u32>,
    e: Vec<i32>,
}

impl Places {
    fn new(many: usize) -> Places {
        Places {
            m: vec![0; many],
            e: vec![0; many],
        }
    }

    fn number(&self, i: usize) -> Scaled {
        Scaled {
            m: self.m[i],
            e: self.e[i],
        }
    }

    fn numbers(&self) -> Vec<Scaled> {
        (0..self.m.len()).map(|i| self.number(i)).collect()
    }
}

/// The memory lent to a call that solves.
struct Lent {
    work: Places,
    weights: Places,
    shares: Places,
    answer: [usize; 3],
}

impl Lent {
    fn new(order: usize) -> Lent {
        // An order above 64 is refused before any of this memory is met.
        let n = order.min(MAX_ORDER);
        Lent {
            work: Places::new(n * n),
            weights: Places::new(n),
            shares: Places::new(n),
            answer: [0; 3],
        }
    }

    /// What the call left there, and returned.
    fn solution(&self, number: u32) -> Result<Solution, Refusal> {
        if number != 0 {
            return Err(Refusal::told(number, self.answer));
        }
        Ok(Solution {
            bound: self.answer[0],
            weights: self.weights.numbers(),
            shares: self.shares.numbers(),
        })
    }
}

/// Solves a chain: its weights and shares, or the first refusal in the order of docs/FORMAT.md; never 5.
pub fn solve(chain: &Chain) -> Result<Solution, Refusal> {
    let mut lent = Lent::new(chain.order);
    // SAFETY: each pointer and length are those of one live slice; the mutable ones are different vectors and one array.
    let number = unsafe {
        sys::stall_solve(
            chain.order,
            chain.starts.as_ptr(),
            chain.starts.len(),
            chain.columns.as_ptr(),
            chain.columns.len(),
            chain.rates.as_ptr(),
            chain.rates.len(),
            lent.work.m.as_mut_ptr(),
            lent.work.m.len(),
            lent.work.e.as_mut_ptr(),
            lent.work.e.len(),
            lent.weights.m.as_mut_ptr(),
            lent.weights.m.len(),
            lent.weights.e.as_mut_ptr(),
            lent.weights.e.len(),
            lent.shares.m.as_mut_ptr(),
            lent.shares.m.len(),
            lent.shares.e.as_mut_ptr(),
            lent.shares.e.len(),
            lent.answer.as_mut_ptr(),
            lent.answer.len(),
        )
    };
    lent.solution(number)
}

/// Solves a chain and sums its shares by group, or gives the first refusal in the order of docs/FORMAT.md; never 5.
///
/// A row of the table is a first state, a last state, and the group, 0 to 15, of all states from the first to the last. Each state
/// is in one row; the rows stand in any order.
///
/// ```
/// let chain = stall::read(&[2, 2, 3, 0, 0, 0, 1, 1, 0, 0, 0])?.chain;
/// let (running, stalled) = (0, 1);
/// let solved = stall::solve_groups(&chain, &[[1, 1, running], [0, 0, stalled]])?;
/// assert_eq!(solved.groups[running as usize].to_f64(), 0.75);
/// assert_eq!(solved.groups[stalled as usize].to_f64(), 0.25);
/// assert_eq!(solved.groups[2].to_f64(), 0.0);
/// # Ok::<(), stall::Refusal>(())
/// ```
pub fn solve_groups(chain: &Chain, table: &[[u32; 3]]) -> Result<GroupSolution, Refusal> {
    let (mut lent, mut groups) = (Lent::new(chain.order), Places::new(GROUPS));
    // SAFETY: each pointer and length are those of one live slice, the table's of the numbers of its rows, three a row, which lie one after
    // another; the mutable ones are different vectors and one array.
    let number = unsafe {
        sys::stall_solve_groups(
            chain.order,
            chain.starts.as_ptr(),
            chain.starts.len(),
            chain.columns.as_ptr(),
            chain.columns.len(),
            chain.rates.as_ptr(),
            chain.rates.len(),
            table.as_ptr().cast::<u32>(),
            3 * table.len(),
            lent.work.m.as_mut_ptr(),
            lent.work.m.len(),
            lent.work.e.as_mut_ptr(),
            lent.work.e.len(),
            lent.weights.m.as_mut_ptr(),
            lent.weights.m.len(),
            lent.weights.e.as_mut_ptr(),
            lent.weights.e.len(),
            lent.shares.m.as_mut_ptr(),
            lent.shares.m.len(),
            lent.shares.e.as_mut_ptr(),
            lent.shares.e.len(),
            groups.m.as_mut_ptr(),
            groups.m.len(),
            groups.e.as_mut_ptr(),
            groups.e.len(),
            lent.answer.as_mut_ptr(),
            lent.answer.len(),
        )
    };
    Ok(GroupSolution {
        solution: lent.solution(number)?,
        groups: std::array::from_fn(|g| groups.number(g)),
    })
}

/// Joins the chains of two stations side by side: the joint chain's state i × b + j has the first in state i and the second in state j,
/// b being the order of the second, and one of the two moves at a time, with its own rate. Or it gives the first refusal in
/// the order of docs/FORMAT.md, of the first part, of the second or of the joint chain; never 5.
///
/// Where both parts have an answer the joint chain has one, and its exact shares are the products of theirs. Parts without an answer are
/// joined too.
///
/// ```
/// let two = stall::read(&[2, 2, 3, 0, 0, 0, 1, 1, 0, 0, 0])?.chain;
/// let joint = stall::join(&two, &two).unwrap();
/// assert_eq!(joint.order, 4);
/// // Each is in state 1 for 3/4 of the time, both at once for 9/16.
/// assert_eq!(stall::solve(&joint)?.shares[3].to_f64(), 0.5625);
/// # Ok::<(), stall::Refusal>(())
/// ```
pub fn join(first: &Chain, second: &Chain) -> Result<Chain, JoinRefusal> {
    let mut starts = vec![0u32; MAX_ORDER + 1];
    let (mut columns, mut rates) = (vec![0u32; MAX_ENTRIES], vec![0u32; MAX_ENTRIES]);
    let mut answer = [0usize; 4];
    // SAFETY: each pointer and length are those of one live slice; the mutable ones are different vectors and one array.
    let number = unsafe {
        sys::stall_join(
            first.order,
            first.starts.as_ptr(),
            first.starts.len(),
            first.columns.as_ptr(),
            first.columns.len(),
            first.rates.as_ptr(),
            first.rates.len(),
            second.order,
            second.starts.as_ptr(),
            second.starts.len(),
            second.columns.as_ptr(),
            second.columns.len(),
            second.rates.as_ptr(),
            second.rates.len(),
            starts.as_mut_ptr(),
            starts.len(),
            columns.as_mut_ptr(),
            columns.len(),
            rates.as_mut_ptr(),
            rates.len(),
            answer.as_mut_ptr(),
            answer.len(),
        )
    };
    if number != 0 {
        return Err(JoinRefusal::told(number, answer));
    }
    let order = first.order * second.order;
    starts.truncate(order + 1);
    columns.truncate(answer[0]);
    rates.truncate(answer[0]);
    Ok(Chain {
        order,
        starts,
        columns,
        rates,
    })
}
