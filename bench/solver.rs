//! Document 01 and requests in plain Rust, nothing proved: scaled numbers, chains in rows and in bytes, the checks, the
//! closed set and its elimination.
use std::io::{self, ErrorKind, Read};

pub const MOST: usize = 64;

/// m * 2^e: Zero is (0, 0), any other number has m from 2^31 on.
#[derive(Clone, Copy, Debug, PartialEq, Eq)]
pub struct Scaled {
    pub m: u32,
    pub e: i32,
}

impl Scaled {
    pub const ZERO: Scaled = Scaled { m: 0, e: 0 };
    const ONE: Scaled = Scaled { m: 1 << 31, e: -31 };

    fn from_rate(rate: u32) -> Scaled {
        if rate == 0 {
            return Scaled::ZERO;
        }
        let zeros = rate.leading_zeros();
        Scaled {
            m: rate << zeros,
            e: -(zeros as i32),
        }
    }

    /// The scaled number nearest to m * 2^e, of two equally near the one with even m; none where its exponent is outside the range.
    fn nearest(m: u64, e: i32) -> Option<Scaled> {
        if m == 0 {
            return Some(Scaled::ZERO);
        }
        let zeros = m.leading_zeros();
        let m = m << zeros;
        let e = e + 32 - zeros as i32;
        // the upper half is kept; this carries into it if the lower half is above 2^31, or is 2^31 and the upper half odd
        let (m, e) = match m.checked_add(0x7FFF_FFFF + (m >> 32 & 1)) {
            Some(sum) => ((sum >> 32) as u32, e),
            None => (1 << 31, e + 1),
        };
        if !(-16384..=16383).contains(&e) {
            return None;
        }
        Some(Scaled { m, e })
    }

    fn plus(self, other: Scaled) -> Option<Scaled> {
        if self.m == 0 {
            return Some(other);
        }
        if other.m == 0 {
            return Some(self);
        }
        let (high, low) = if self.e < other.e {
            (other, self)
        } else {
            (self, other)
        };
        let distance = high.e - low.e;
        if distance > 32 {
            return Some(high);
        }
        Scaled::nearest((u64::from(high.m) << distance) + u64::from(low.m), low.e)
    }

    fn times(self, other: Scaled) -> Option<Scaled> {
        Scaled::nearest(u64::from(self.m) * u64::from(other.m), self.e + other.e)
    }

    /// None also for a quotient by Zero. The quotient goes on with two bits of its rest: whether it is half a unit or more, and whether
    /// more is left than that.
    fn over(self, other: Scaled) -> Option<Scaled> {
        let (dividend, divisor) = (u64::from(self.m) << 32, u64::from(other.m));
        let quotient = dividend.checked_div(divisor)?;
        let twice = 2 * (dividend - quotient * divisor);
        let half = u64::from(twice >= divisor);
        let more = u64::from(twice != half * divisor);
        Scaled::nearest(quotient << 2 | half << 1 | more, self.e - other.e - 34)
    }
}

/// Why a chain is turned away. No theorem here says that the last never happens.
#[derive(Debug)]
#[allow(dead_code)] // the places are read by Debug alone
pub enum Refusal {
    Order,
    Lengths,
    Starts,
    Columns { row: usize, place: usize },
    ZeroRate { row: usize, column: usize },
    Room,
    ClosedSets { first: usize, second: usize },
    OutOfRange,
}

/// A chain in rows: the entries of row i stand at places starts[i] up to, not including, starts[i + 1].
pub struct Chain {
    pub n: usize,
    pub starts: Vec<u32>,
    pub columns: Vec<u32>,
    pub rates: Vec<u32>,
}

impl Chain {
    /// Reads a stored chain of form 1.
    pub fn read(mut bytes: impl Read) -> io::Result<Chain> {
        let mut order = [0];
        bytes.read_exact(&mut order)?;
        let n = usize::from(order[0]);
        if n == 0 || n > MOST {
            return Err(ErrorKind::InvalidData.into());
        }
        let mut chain = Chain {
            n,
            starts: vec![0],
            columns: Vec::new(),
            rates: Vec::new(),
        };
        for _ in 0..n {
            let mut map = [0; 8];
            bytes.read_exact(&mut map[..n.div_ceil(8)])?;
            let map = u64::from_le_bytes(map);
            for column in (0..64).filter(|j| map >> j & 1 == 1) {
                let mut rate = [0; 4];
                bytes.read_exact(&mut rate)?;
                chain.columns.push(column);
                chain.rates.push(u32::from_le_bytes(rate));
            }
            chain.starts.push(chain.columns.len() as u32);
        }
        match bytes.read(&mut [0])? {
            0 => Ok(chain),
            _ => Err(ErrorKind::InvalidData.into()),
        }
    }

    fn check_rules(&self) -> Result<(), Refusal> {
        if self.n == 0 || self.n > MOST {
            return Err(Refusal::Order);
        }
        if self.columns.len() != self.rates.len() {
            return Err(Refusal::Lengths);
        }
        if self.starts.len() != self.n + 1
            || self.starts[0] != 0
            || self.starts.windows(2).any(|pair| pair[1] < pair[0])
            || self.starts[self.n] as usize != self.columns.len()
        {
            return Err(Refusal::Starts);
        }
        for row in 0..self.n {
            let mut least = 0;
            for place in self.starts[row] as usize..self.starts[row + 1] as usize {
                let column = self.columns[place] as usize;
                if column < least || column >= self.n || column == row {
                    return Err(Refusal::Columns { row, place });
                }
                least = column + 1;
            }
        }
        for row in 0..self.n {
            if let Some((column, _)) = self.row(row).find(|&(_, rate)| rate == 0) {
                return Err(Refusal::ZeroRate { row, column });
            }
        }
        Ok(())
    }

    /// The columns and rates of row i, for a chain whose starts and columns keep their rules.
    fn row(&self, i: usize) -> impl Iterator<Item = (usize, u32)> + '_ {
        let places = self.starts[i] as usize..self.starts[i + 1] as usize;
        let columns = self.columns[places.clone()].iter();
        let rates = self.rates[places].iter();
        columns
            .zip(rates)
            .map(|(&column, &rate)| (column as usize, rate))
    }

    /// Bit j of mask i stands if state i reaches state j.
    fn reached(&self) -> [u64; MOST] {
        let mut masks = [0u64; MOST];
        for (i, mask) in masks[..self.n].iter_mut().enumerate() {
            *mask = 1 << i;
            for (j, rate) in self.row(i) {
                if rate > 0 {
                    *mask |= 1 << j;
                }
            }
        }
        for k in 0..self.n {
            let through = masks[k];
            for mask in masks[..self.n].iter_mut() {
                if *mask >> k & 1 == 1 {
                    *mask |= through;
                }
            }
        }
        masks
    }

    /// The states of the one closed set, as a mask.
    fn closed_set(&self) -> Result<u64, Refusal> {
        let masks = self.reached();
        let closed = |i: &usize| {
            let own = masks[*i];
            let mut within = (*i..self.n).filter(|j| own >> j & 1 == 1);
            own.trailing_zeros() as usize == *i && within.all(|j| masks[j] == own)
        };
        let mut lowest = (0..self.n).filter(closed);
        match (lowest.next(), lowest.next()) {
            (Some(first), Some(second)) => Err(Refusal::ClosedSets { first, second }),
            (Some(first), None) => Ok(masks[first]),
            (None, _) => unreachable!("from every state some closed set is reached"),
        }
    }
}

/// Leaves each pivot on the diagonal, the quotients to its right, and the column below it as it stood at that step. (Inlined, it is
/// compiled to 3 per cent more instructions.)
#[inline(never)]
fn eliminate(a: &mut [Scaled], n: usize) -> Option<()> {
    for k in 0..n - 1 {
        let (upper, lower) = a.split_at_mut((k + 1) * n);
        let (pivot, quotients) = upper[k * n + k..].split_first_mut()?;
        *pivot = Scaled::ZERO;
        for &entry in quotients.iter() {
            *pivot = pivot.plus(entry)?;
        }
        for entry in quotients.iter_mut() {
            *entry = entry.over(*pivot)?;
        }
        for (i, row) in lower.chunks_exact_mut(n).enumerate() {
            let (&mut first, rest) = row[k..].split_first_mut()?;
            if first == Scaled::ZERO {
                continue;
            }
            for (j, (entry, &t)) in rest.iter_mut().zip(quotients.iter()).enumerate() {
                if i != j {
                    *entry = entry.plus(first.times(t)?)?;
                }
            }
        }
    }
    Some(())
}

/// The weights, from the last state down.
fn weigh(a: &[Scaled], n: usize, weights: &mut [Scaled]) -> Option<()> {
    weights[n - 1] = Scaled::ONE;
    for k in (0..n - 1).rev() {
        let mut flow = Scaled::ZERO;
        for j in k + 1..n {
            flow = flow.plus(weights[j].times(a[j * n + k])?)?;
        }
        weights[k] = flow.over(a[k * n + k])?;
    }
    Some(())
}

fn share(weights: &[Scaled], shares: &mut [Scaled]) -> Option<()> {
    let mut total = Scaled::ZERO;
    for &weight in weights {
        total = total.plus(weight)?;
    }
    for (share, &weight) in shares.iter_mut().zip(weights) {
        *share = weight.over(total)?;
    }
    Some(())
}

/// The place of each state of the set among them.
fn places_in(set: u64, n: usize) -> [usize; MOST] {
    let mut places = [0; MOST];
    let states = (0..n).filter(|i| set >> i & 1 == 1);
    for (place, i) in states.enumerate() {
        places[i] = place;
    }
    places
}

/// What the first places hold goes to the states of the set, in order; the others get Zero.
fn spread(numbers: &mut [Scaled], set: u64, places: &[usize; MOST]) {
    for i in (0..numbers.len()).rev() {
        numbers[i] = match set >> i & 1 {
            1 => numbers[places[i]],
            _ => Scaled::ZERO,
        };
    }
}

/// Solves a chain and answers the bound count of its closed set; the work places end as Zero.
pub fn solve(
    chain: &Chain,
    work: &mut [Scaled],
    weights: &mut [Scaled],
    shares: &mut [Scaled],
) -> Result<usize, Refusal> {
    chain.check_rules()?;
    let n = chain.n;
    if work.len() < n * n || weights.len() < n || shares.len() < n {
        return Err(Refusal::Room);
    }
    let set = chain.closed_set()?;
    let r = set.count_ones() as usize;
    let places = places_in(set, n);
    let (work, weights, shares) = (&mut work[..n * n], &mut weights[..n], &mut shares[..n]);
    work.fill(Scaled::ZERO);
    let a = &mut work[..r * r];
    for i in (0..n).filter(|i| set >> i & 1 == 1) {
        for (j, rate) in chain.row(i).filter(|(j, _)| set >> j & 1 == 1) {
            a[places[i] * r + places[j]] = Scaled::from_rate(rate);
        }
    }
    let weighed = eliminate(a, r).and_then(|()| weigh(a, r, weights));
    a.fill(Scaled::ZERO);
    match weighed.and_then(|()| share(&weights[..r], shares)) {
        Some(()) => {
            spread(weights, set, &places);
            spread(shares, set, &places);
            Ok((2 * r * r * r + 6 * r * r - 8 * r) / 3)
        }
        None => Err(Refusal::OutOfRange),
    }
}
