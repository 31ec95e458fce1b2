//! Stored chains: read from either form, written in either.
use crate::{sys, Chain, Refusal, MAX_BYTES, MAX_ENTRIES, MAX_ORDER};

/// How a chain is stored. A chain itself has no form: each has one file in either.
#[derive(Clone, Copy, Debug, PartialEq, Eq, Hash)]
pub enum Form {
    /// Each rate has four bytes. The first byte is the order.
    One,
    /// Each rate below 65,536 has two bytes, and each row a second map, which marks them. The first byte is 128 more
    /// than the order.
    Two,
}

impl Form {
    /// From the third answer place of a reading. Its contract leaves no other number.
    fn told(number: usize) -> Form {
        match number {
            1 => Form::One,
            2 => Form::Two,
            _ => unreachable!("the library's contract has no form {number}"),
        }
    }
}

/// What reading gives for an accepted file.
#[derive(Clone, Debug, PartialEq, Eq, Hash)]
pub struct Reading {
    /// The form of the file. `write_as` with it gives the same bytes again.
    pub form: Form,
    pub chain: Chain,
}

/// Reads a stored chain of either form, or gives the first refusal of its bytes in the order of docs/FORMAT.md; never 5.
///
/// ```
/// // Two states, 0 to 1 rate 3 and 1 to 0 rate 1, in form 1 and in form 2.
/// let one = stall::read(&[2, 2, 3, 0, 0, 0, 1, 1, 0, 0, 0])?;
/// let two = stall::read(&[130, 2, 2, 3, 0, 1, 1, 1, 0])?;
/// assert_eq!((one.form, two.form), (stall::Form::One, stall::Form::Two));
/// assert_eq!(one.chain, two.chain);
/// # Ok::<(), stall::Refusal>(())
/// ```
pub fn read(bytes: &[u8]) -> Result<Reading, Refusal> {
    let mut starts = vec![0u32; MAX_ORDER + 1];
    let (mut columns, mut rates) = (vec![0u32; MAX_ENTRIES], vec![0u32; MAX_ENTRIES]);
    let mut answer = [0usize; 3];
    // SAFETY: each pointer and length are those of one live slice; the mutable ones are different vectors and one array.
    let number = unsafe {
        sys::stall_read(
            bytes.as_ptr(),
            bytes.len(),
            starts.as_mut_ptr(),
            starts.len(),
            columns.as_mut_ptr(),
            columns.len(),
            rates.as_mut_ptr(),
            rates.len(),
            answer.as_mut_ptr(),
            answer.len(),
        )
    };
    if number != 0 {
        return Err(Refusal::told(number, answer));
    }
    let [order, entries, form] = answer;
    starts.truncate(order + 1);
    columns.truncate(entries);
    rates.truncate(entries);
    Ok(Reading {
        form: Form::told(form),
        chain: Chain {
            order,
            starts,
            columns,
            rates,
        },
    })
}

/// Stores a chain in form 1, or gives the first refusal in the order of docs/FORMAT.md; never 5. A chain with several closed sets, which
/// solving refuses by 6, is stored too.
pub fn write(chain: &Chain) -> Result<Vec<u8>, Refusal> {
    write_as(Form::One, chain)
}

/// Stores a chain in a form, and is as `write` in all else.
///
/// ```
/// let one = [2, 2, 3, 0, 0, 0, 1, 1, 0, 0, 0];
/// let chain = stall::read(&one)?.chain;
/// let two = stall::write_as(stall::Form::Two, &chain)?;
/// assert_eq!(two, [130, 2, 2, 3, 0, 1, 1, 1, 0]);
/// assert_eq!(stall::write_as(stall::Form::One, &chain)?, one);
/// # Ok::<(), stall::Refusal>(())
/// ```
pub fn write_as(form: Form, chain: &Chain) -> Result<Vec<u8>, Refusal> {
    let call = match form {
        Form::One => sys::stall_write,
        Form::Two => sys::stall_write_short,
    };
    let mut out = vec![0u8; MAX_BYTES];
    let mut answer = [0usize; 3];
    // SAFETY: each pointer and length are those of one live slice; the mutable ones are one vector and one array.
    let number = unsafe {
        call(
            chain.order,
            chain.starts.as_ptr(),
            chain.starts.len(),
            chain.columns.as_ptr(),
            chain.columns.len(),
            chain.rates.as_ptr(),
            chain.rates.len(),
            out.as_mut_ptr(),
            out.len(),
            answer.as_mut_ptr(),
            answer.len(),
        )
    };
    if number != 0 {
        return Err(Refusal::told(number, answer));
    }
    out.truncate(answer[0]);
    Ok(out)
}
