//! What the words of the command line ask for.

/// How to call the program.
pub const USAGE: &str = "usage: compare [ROUNDS [SEED]]\n       compare largest";

const ROUNDS: u64 = 2_000;
const SEED: u64 = 1;

/// What is to be compared.
#[derive(Debug, PartialEq, Eq)]
pub enum Work {
    /// So many rounds, the first from this seed and each further one from the next.
    Rounds { rounds: u64, seed: u64 },
    /// The largest networks.
    Largest,
}

/// The work that the words ask for, or why they ask for none.
pub fn parse(words: &[String]) -> Result<Work, String> {
    match words {
        [word] if word == "largest" => Ok(Work::Largest),
        [] => some_rounds(ROUNDS, SEED),
        [rounds] => some_rounds(number(rounds)?, SEED),
        [rounds, seed] => some_rounds(number(rounds)?, number(seed)?),
        _ => Err("there are too many words".to_owned()),
    }
}

fn number(word: &str) -> Result<u64, String> {
    let most = u64::MAX;
    word.parse()
        .map_err(|_| format!("'{word}' is no whole number from 0 to {most}"))
}

/// A run must compare something: there is a round, and every round has a seed.
fn some_rounds(rounds: u64, seed: u64) -> Result<Work, String> {
    if rounds == 0 {
        return Err("0 rounds would compare nothing".to_owned());
    }
    if seed.checked_add(rounds).is_none() {
        return Err(format!(
            "there are no {rounds} seeds from {seed} on: their sum is above {}",
            u64::MAX
        ));
    }
    Ok(Work::Rounds { rounds, seed })
}

#[cfg(test)]
mod tests {
    use super::*;

    fn parsed(line: &str) -> Result<Work, String> {
        let words: Vec<String> = line.split_whitespace().map(str::to_owned).collect();
        parse(&words)
    }

    #[test]
    fn numbers_or_the_usual_ones() {
        let rounds = |rounds, seed| Ok(Work::Rounds { rounds, seed });
        assert_eq!(parsed(""), rounds(2_000, 1));
        assert_eq!(parsed("7"), rounds(7, 1));
        assert_eq!(parsed("7 0"), rounds(7, 0));
        assert_eq!(parsed("1 18446744073709551614"), rounds(1, u64::MAX - 1));
        assert_eq!(parsed("largest"), Ok(Work::Largest));
    }

    #[test]
    fn a_run_of_nothing_is_refused() {
        assert!(parsed("0").is_err());
        assert!(parsed("0 5").is_err());
        assert!(parsed("2 18446744073709551614").is_err());
        assert!(parsed("1 18446744073709551615").is_err());
    }

    #[test]
    fn other_words_are_refused() {
        for line in [
            "x",
            "-1",
            "1 x",
            "1.5",
            "18446744073709551616",
            "1 2 3",
            "largest 3",
            "Largest",
        ] {
            assert!(parsed(line).is_err(), "{line}");
        }
    }
}
