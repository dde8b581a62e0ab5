//! A difference between the core and the second program, and the file that shows it.

use std::fmt::{self, Debug, Display};
use std::fs;
use std::io;
use std::path::{Path, PathBuf};

/// What a comparison gives: nothing, or what differs.
pub type Compared = Result<(), Difference>;

/// What a service was given, each thing with its name.
pub type Given<'a> = [(&'static str, &'a dyn Debug)];

/// Bytes, shown as lines: bytes that don't print as escapes, and a line's end behind each line feed.
#[derive(Clone, Copy, PartialEq, Eq)]
pub struct Text<B>(pub B);

impl<B: AsRef<[u8]>> Debug for Text<B> {
    fn fmt(&self, f: &mut fmt::Formatter<'_>) -> fmt::Result {
        let bytes = self.0.as_ref();
        write!(f, "{} bytes", bytes.len())?;
        for line in bytes.split_inclusive(|&byte| byte == b'\n') {
            write!(f, "\n    {}", line.escape_ascii())?;
        }
        Ok(())
    }
}

/// An answer that isn't the one that is due, with everything that shows it.
#[derive(Debug)]
pub struct Difference {
    service: &'static str,
    fault: String,
    given: Vec<(&'static str, String)>,
    due: String,
    answered: String,
}

impl Difference {
    /// What the service was given, what is due by the second program, and what the core answered.
    pub fn new(
        service: &'static str,
        fault: impl Into<String>,
        given: &Given,
        due: &dyn Debug,
        answered: &dyn Debug,
    ) -> Self {
        let given = given
            .iter()
            .map(|(name, value)| (*name, format!("{value:?}")));
        Difference {
            service,
            fault: fault.into(),
            given: given.collect(),
            due: format!("{due:?}"),
            answered: format!("{answered:?}"),
        }
    }

    /// Writes the whole case to a file of this name in the folder, which is made if there is none.
    pub fn write(&self, folder: &Path, name: &str) -> io::Result<PathBuf> {
        fs::create_dir_all(folder)?;
        let path = folder.join(format!("{name}.txt"));
        fs::write(&path, self.whole(name))?;
        Ok(path)
    }

    /// All that is known of the case.
    fn whole(&self, name: &str) -> String {
        let mut whole = format!("{name}: {self}\n");
        for (name, value) in &self.given {
            whole += &format!("\ngiven {name}: {value}\n");
        }
        whole += &format!("\ndue, by the second program: {}\n", self.due);
        whole += &format!("\nanswered, by the core: {}\n", self.answered);
        whole
    }

    /// Writes the case to target/compare, and says what differs and where the case is.
    pub fn report(&self, name: &str) -> String {
        match self.write(&folder(), name) {
            Ok(path) => format!("{name}: {self}; the case is in {}", path.display()),
            Err(error) => format!("{name}: {self}; the case can't be written: {error}"),
        }
    }
}

impl Display for Difference {
    fn fmt(&self, f: &mut fmt::Formatter<'_>) -> fmt::Result {
        write!(f, "{}: {}", self.service, self.fault)
    }
}

/// The repository's folder `target/compare`.
fn folder() -> PathBuf {
    let here = Path::new(env!("CARGO_MANIFEST_DIR"));
    here.parent().unwrap_or(here).join("target/compare")
}

/// Words that are shown without quotation marks.
pub struct Words<'a>(pub &'a str);

impl Debug for Words<'_> {
    fn fmt(&self, f: &mut fmt::Formatter<'_>) -> fmt::Result {
        f.write_str(self.0)
    }
}

#[cfg(test)]
mod tests {
    use std::env;
    use std::process;

    use super::*;

    #[test]
    fn a_case_is_written_whole() {
        let folder = env::temp_dir().join(format!("compare-{}", process::id()));
        let difference = Difference::new(
            "chain check",
            "the core answers 0, 12 is due",
            &[("network", &Text(b"01\n\r\xff")), ("vertices", &7)],
            &Words("answer 12"),
            &Words("answer 0"),
        );
        let path = difference.write(&folder, "seed-5-chains").unwrap();
        let written = fs::read_to_string(&path).unwrap();
        fs::remove_dir_all(&folder).unwrap();
        assert_eq!(path, folder.join("seed-5-chains.txt"));
        assert_eq!(
            written,
            "seed-5-chains: chain check: the core answers 0, 12 is due\n\n\
             given network: 5 bytes\n    01\\n\n    \\r\\xff\n\n\
             given vertices: 7\n\n\
             due, by the second program: answer 12\n\n\
             answered, by the core: answer 0\n"
        );
    }

    #[test]
    fn a_folder_that_cannot_be_made_is_an_error() {
        let file = env::temp_dir().join(format!("compare-file-{}", process::id()));
        fs::write(&file, "").unwrap();
        let difference = Difference::new("audit", "", &[], &0, &1);
        let written = difference.write(&file.join("below"), "seed-1-audit");
        fs::remove_file(&file).unwrap();
        assert!(written.is_err());
    }
}
