//! Plans the network text on standard input: chain and kept text, or one 0f line.

use std::io::{self, Read, Write};

use second::lengths::LONGEST_NETWORK_TEXT;
use second::{plan_output, Method};

fn main() -> io::Result<()> {
    // One byte more than any network text has is enough to see bytes left over.
    let longest = u64::try_from(LONGEST_NETWORK_TEXT + 1).unwrap_or(u64::MAX);
    let mut text = Vec::new();
    io::stdin().lock().take(longest).read_to_end(&mut text)?;
    io::stdout().write_all(&plan_output(&text, Method::Mixed))
}
