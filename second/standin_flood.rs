//! A stand-in for the run program, done by the model, for the same use as standin.rs.

#[allow(dead_code)]
mod model;

use std::io::{Read, Write};

fn main() -> std::io::Result<()> {
    let mut input = Vec::new();
    std::io::stdin().read_to_end(&mut input)?;
    std::io::stdout().write_all(&model::program::output(&input).1)
}
