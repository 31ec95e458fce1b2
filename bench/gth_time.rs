//! The time of solving alone: `stall_solve` of the static library, which is proved, and `solve` of solver.rs, which is not, in turn on
//! one stored chain from standard input. Prints the least processor time of each, in nanoseconds a solve. Exits with 1 if they differ.
#[allow(dead_code)]
mod solver;
#[allow(dead_code)]
#[path = "../rust/src/sys.rs"]
mod sys;

use solver::{solve, Chain, Scaled};
use std::hint::black_box;
use std::io;
use std::process::exit;

const ROUNDS: usize = 101;

/// The solves of a batch: 400 at 64 states, and more of a smaller chain, so that a batch lasts some milliseconds.
fn batch(n: usize) -> usize {
    400 * 64 * 64 / (n * n)
}

/// The memory lent to the plain solver.
struct Plain {
    work: Vec<Scaled>,
    weights: Vec<Scaled>,
    shares: Vec<Scaled>,
}

impl Plain {
    fn new(n: usize) -> Plain {
        Plain {
            work: vec![Scaled::ZERO; n * n],
            weights: vec![Scaled::ZERO; n],
            shares: vec![Scaled::ZERO; n],
        }
    }

    /// Whether the chain is accepted.
    fn solve(&mut self, chain: &Chain) -> bool {
        solve(chain, &mut self.work, &mut self.weights, &mut self.shares).is_ok()
    }
}

/// The memory lent to the proved call.
struct Proved {
    work_m: Vec<u32>,
    work_e: Vec<i32>,
    weight_m: Vec<u32>,
    weight_e: Vec<i32>,
    share_m: Vec<u32>,
    share_e: Vec<i32>,
    answer: [usize; 3],
}

impl Proved {
    fn new(n: usize) -> Proved {
        Proved {
            work_m: vec![0; n * n],
            work_e: vec![0; n * n],
            weight_m: vec![0; n],
            weight_e: vec![0; n],
            share_m: vec![0; n],
            share_e: vec![0; n],
            answer: [0; 3],
        }
    }

    /// Whether the chain is accepted.
    fn solve(&mut self, chain: &Chain) -> bool {
        // SAFETY: each pointer and length are those of one live slice; the mutable ones are different vectors and one array.
        let number = unsafe {
            sys::stall_solve(
                chain.n,
                chain.starts.as_ptr(),
                chain.starts.len(),
                chain.columns.as_ptr(),
                chain.columns.len(),
                chain.rates.as_ptr(),
                chain.rates.len(),
                self.work_m.as_mut_ptr(),
                self.work_m.len(),
                self.work_e.as_mut_ptr(),
                self.work_e.len(),
                self.weight_m.as_mut_ptr(),
                self.weight_m.len(),
                self.weight_e.as_mut_ptr(),
                self.weight_e.len(),
                self.share_m.as_mut_ptr(),
                self.share_m.len(),
                self.share_e.as_mut_ptr(),
                self.share_e.len(),
                self.answer.as_mut_ptr(),
                self.answer.len(),
            )
        };
        number == 0
    }
}

fn same(m: &[u32], e: &[i32], numbers: &[Scaled]) -> bool {
    let pairs = m.iter().zip(e).map(|(&m, &e)| Scaled { m, e });
    pairs.eq(numbers.iter().copied())
}

#[repr(C)]
struct Timespec {
    seconds: i64,
    nanoseconds: i64,
}

extern "C" {
    fn clock_gettime(clock: i32, time: *mut Timespec) -> i32;
}

/// The processor time of this process in nanoseconds. Unlike the time of day it leaves out what other processes take.
fn processor_time() -> i64 {
    const CLOCK_PROCESS_CPUTIME_ID: i32 = 2;
    let mut time = Timespec {
        seconds: 0,
        nanoseconds: 0,
    };
    // SAFETY: `time` is a live timespec as 64-bit Linux lays it out.
    if unsafe { clock_gettime(CLOCK_PROCESS_CPUTIME_ID, &mut time) } != 0 {
        eprintln!("no clock of processor time");
        exit(1);
    }
    time.seconds * 1_000_000_000 + time.nanoseconds
}

/// The time of a batch of solves.
fn timed(solves: usize, mut solve: impl FnMut() -> bool) -> i64 {
    let begin = processor_time();
    for _ in 0..solves {
        black_box(solve());
    }
    processor_time() - begin
}

fn main() -> io::Result<()> {
    let chain = Chain::read(io::stdin().lock())?;
    let mut proved = Proved::new(chain.n);
    let mut plain = Plain::new(chain.n);
    let solves = batch(chain.n);
    let (mut proved_least, mut plain_least) = (i64::MAX, i64::MAX);
    for _ in 0..ROUNDS {
        let time = timed(solves, || black_box(&mut proved).solve(black_box(&chain)));
        proved_least = proved_least.min(time);
        let time = timed(solves, || black_box(&mut plain).solve(black_box(&chain)));
        plain_least = plain_least.min(time);
    }
    let accepted = proved.solve(&chain) && plain.solve(&chain);
    if !accepted
        || !same(&proved.weight_m, &proved.weight_e, &plain.weights)
        || !same(&proved.share_m, &proved.share_e, &plain.shares)
    {
        eprintln!("the proved call and the plain solver differ, or refuse the chain");
        exit(1);
    }
    let each = |time: i64| time as f64 / solves as f64;
    println!("{:.1} {:.1}", each(proved_least), each(plain_least));
    Ok(())
}
