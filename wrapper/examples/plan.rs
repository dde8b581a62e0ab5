//! Plans the network text on standard input, and prints the chain text and the kept text.

use std::error::Error;
use std::io::{self, Read, Write};

fn main() -> Result<(), Box<dyn Error>> {
    let mut network = Vec::new();
    io::stdin().read_to_end(&mut network)?;
    let plan = thinning::plan(&network)?;
    let mut output = io::stdout();
    output.write_all(&plan.chain)?;
    output.write_all(&plan.kept)?;
    Ok(())
}
