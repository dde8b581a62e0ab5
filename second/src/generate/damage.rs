//! Damage to the form of any text.

use super::Rng;

/// A way to damage a text. Some texts come out unchanged.
#[derive(Clone, Copy, Debug, PartialEq, Eq)]
pub enum Damage {
    /// The last line feed goes missing.
    MissingLastFeed,
    /// A letter digit, or all of them, in upper case.
    UpperCase,
    /// A carriage return before one line feed or before all.
    CarriageReturn,
    /// One digit more or less on a line.
    OddDigits,
    /// A line without digits.
    BlankLine,
    /// Another kind of frame, perhaps of the right length.
    WrongKind,
    /// One byte of a frame more or less.
    WrongLength,
    /// Two lines change places.
    SwappedFrames,
    /// A line appears twice.
    RepeatedFrame,
    /// A line goes missing.
    MissingFrame,
    /// Two frames on one line.
    JoinedFrames,
    /// The text ends at any byte.
    CutAnywhere,
    /// Bytes follow the text.
    LeftOver,
    /// One digit changes into another.
    ChangedDigit,
    /// Any byte changes into any other.
    ChangedByte,
    /// Nothing is left.
    Empty,
    /// Bytes that never were a text.
    Junk,
    /// The text many times over.
    Repeated,
}

impl Damage {
    /// Every way.
    pub const ALL: [Damage; 18] = [
        Damage::MissingLastFeed,
        Damage::UpperCase,
        Damage::CarriageReturn,
        Damage::OddDigits,
        Damage::BlankLine,
        Damage::WrongKind,
        Damage::WrongLength,
        Damage::SwappedFrames,
        Damage::RepeatedFrame,
        Damage::MissingFrame,
        Damage::JoinedFrames,
        Damage::CutAnywhere,
        Damage::LeftOver,
        Damage::ChangedDigit,
        Damage::ChangedByte,
        Damage::Empty,
        Damage::Junk,
        Damage::Repeated,
    ];

    /// The damaged text.
    pub fn apply(self, rng: &mut Rng, text: &[u8]) -> Vec<u8> {
        match self {
            Damage::Empty => return Vec::new(),
            Damage::Junk => return junk(rng),
            Damage::LeftOver => return [text, &left_over(rng, text)].concat(),
            Damage::Repeated => return text.repeat(rng.between(2, 4)),
            _ if text.is_empty() => return Vec::new(),
            _ => {}
        }
        let mut lines: Vec<Vec<u8>> = text
            .split_inclusive(|&byte| byte == b'\n')
            .map(<[u8]>::to_vec)
            .collect();
        let place = rng.below(lines.len());
        let line = &mut lines[place];
        match self {
            Damage::MissingLastFeed => {
                let whole = text.strip_suffix(b"\n").unwrap_or(text);
                return whole.to_vec();
            }
            Damage::UpperCase if rng.once_in(2) => return text.to_ascii_uppercase(),
            Damage::UpperCase => return one_upper_case(rng, text),
            Damage::CarriageReturn if rng.once_in(2) => line.insert(line.len() - 1, b'\r'),
            Damage::CarriageReturn => {
                for line in &mut lines {
                    line.insert(line.len() - 1, b'\r');
                }
            }
            Damage::OddDigits if rng.once_in(2) => {
                line.remove(rng.below(line.len()));
            }
            Damage::OddDigits => line.insert(rng.below(line.len()), any_digit(rng)),
            Damage::BlankLine => {
                let place = rng.between(0, lines.len());
                lines.insert(place, b"\n".to_vec());
            }
            Damage::WrongKind => {
                let kind: &[u8; 2] = rng.pick(&[
                    b"00", b"01", b"02", b"03", b"04", b"05", b"06", b"0f", b"12",
                ]);
                let start = line.len().min(2);
                line.splice(..start, kind.iter().copied());
            }
            Damage::WrongLength if rng.once_in(2) => {
                let end = line.len() - 1;
                line.splice(end..end, [any_digit(rng), any_digit(rng)]);
            }
            Damage::WrongLength => {
                let feed = line.len() - 1;
                line.drain(feed.saturating_sub(2)..feed);
            }
            Damage::SwappedFrames => {
                let other = rng.below(lines.len());
                lines.swap(place, other);
            }
            Damage::RepeatedFrame => {
                let again = lines[place].clone();
                lines.insert(place, again);
            }
            Damage::MissingFrame => {
                lines.remove(place);
            }
            Damage::JoinedFrames => {
                line.pop();
            }
            Damage::CutAnywhere => return text[..rng.below(text.len())].to_vec(),
            Damage::ChangedDigit => {
                let at = rng.below(line.len());
                line[at] = any_digit(rng);
            }
            Damage::ChangedByte => {
                let at = rng.below(line.len());
                line[at] = any_byte(rng);
            }
            Damage::LeftOver | Damage::Empty | Damage::Junk | Damage::Repeated => {
                unreachable!("handled above")
            }
        }
        lines.concat()
    }
}

/// Damages a text once or a few times, in any ways.
pub fn damage(rng: &mut Rng, text: &[u8]) -> Vec<u8> {
    let mut damaged = rng.pick(&Damage::ALL).apply(rng, text);
    while rng.once_in(4) {
        damaged = rng.pick(&Damage::ALL).apply(rng, &damaged);
    }
    damaged
}

/// Bytes that are neither digits nor line feeds.
pub(super) const IN_NO_LINE: &[u8; 8] = b"AFg \r-\x00\xff";

/// Breaks a line of a text that reads, so that the reader refuses its form there.
pub(super) fn break_line(rng: &mut Rng, text: &mut Vec<u8>) {
    let at = rng.below(text.len());
    match rng.below(4) {
        0 => text[at] = rng.pick(IN_NO_LINE),
        1 => text.insert(at, rng.pick(b"0f\n\r")),
        2 => {
            text.remove(at);
        }
        _ => text.truncate(at),
    }
}

fn any_digit(rng: &mut Rng) -> u8 {
    rng.pick(b"0123456789abcdef")
}

fn any_byte(rng: &mut Rng) -> u8 {
    u8::try_from(rng.below(256)).expect("below 256")
}

fn one_upper_case(rng: &mut Rng, text: &[u8]) -> Vec<u8> {
    let mut changed = text.to_vec();
    let letters: Vec<usize> = (0..text.len())
        .filter(|&at| text[at].is_ascii_lowercase())
        .collect();
    if let Some(at) = rng.pick_any(&letters) {
        changed[at].make_ascii_uppercase();
    }
    changed
}

fn junk(rng: &mut Rng) -> Vec<u8> {
    let length = rng.below(60);
    let digits_only = rng.once_in(2);
    (0..length)
        .map(|_| {
            if digits_only {
                rng.pick(b"0123456789abcdef00000000\n")
            } else {
                any_byte(rng)
            }
        })
        .collect()
}

fn left_over(rng: &mut Rng, text: &[u8]) -> Vec<u8> {
    match rng.below(6) {
        0 => b"\n".to_vec(),
        1 => b"0".to_vec(),
        2 => vec![any_byte(rng)],
        3 => b"050000\n".to_vec(),
        4 => {
            let lines: Vec<&[u8]> = text.split_inclusive(|&byte| byte == b'\n').collect();
            rng.pick_any(&lines).unwrap_or(b"\r\n").to_vec()
        }
        _ => junk(rng),
    }
}
