//! Writes the text of a network with 256 vertices for each family, as files of a folder.
//!
//! Run with `cargo run --release --offline --example largest -- FOLDER`; a file has its family's name.

use std::path::PathBuf;
use std::{env, fs, io};

use second::generate::{self, CostStyle, Family, Rng};

const VERTICES: usize = 256;
const SEED: u64 = 1;

fn main() -> io::Result<()> {
    let folder = PathBuf::from(env::args_os().nth(1).expect("a folder is named"));
    fs::create_dir_all(&folder)?;
    for family in Family::ALL {
        let mut rng = Rng::new(SEED);
        let network = generate::network_of(&mut rng, family, VERTICES, CostStyle::Anything);
        fs::write(
            folder.join(format!("{family:?}.txt")),
            generate::text(&network),
        )?;
    }
    Ok(())
}
