//! GTH in plain unproved Rust, printed as the printing program prints.
mod solver;

use solver::{solve, Chain, Scaled};
use std::io::{self, BufWriter, Read, Write};
use std::process::exit;

fn main() -> io::Result<()> {
    let mut bytes = Vec::new();
    io::stdin().read_to_end(&mut bytes)?;
    let chain = Chain::read(&bytes[..])?;
    let n = chain.n;
    let mut work = vec![Scaled::ZERO; n * n];
    let mut weights = vec![Scaled::ZERO; n];
    let mut shares = vec![Scaled::ZERO; n];
    let bound = solve(&chain, &mut work, &mut weights, &mut shares).unwrap_or_else(|refusal| {
        eprintln!("refused: {refusal:?}");
        exit(1)
    });
    let mut out = BufWriter::new(io::stdout().lock());
    writeln!(out, "states {n} bound {bound}")?;
    for (i, (weight, share)) in weights.iter().zip(&shares).enumerate() {
        writeln!(out, "{i} {} {} {} {}", weight.m, weight.e, share.m, share.e)?;
    }
    out.flush()
}
