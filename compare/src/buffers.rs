//! Buffers and numbers that are lent to a service, and what they must hold afterwards.
//!
//! Around a buffer there are elements that the service isn't lent. After an answer a
//! buffer holds what is due and behind that what it held before; after a refusal it holds
//! what it held before, and so does every number.

use std::fmt::Debug;

use second::generate::Rng;
use second::lengths::fits;
use second::Refusal;

use crate::difference::{Compared, Difference, Given, Text, Words};

/// Elements before and behind each buffer.
const GUARD: usize = 16;

/// Something to fill a buffer with before it is lent.
pub trait Filling: Copy + PartialEq + Debug {
    /// An element out of some random bits.
    fn filling(bits: u64) -> Self;

    /// Some elements, to be read.
    fn shown(elements: &[Self]) -> String {
        format!("{elements:?}")
    }
}

impl Filling for u8 {
    fn filling(bits: u64) -> u8 {
        bits.to_le_bytes()[0]
    }

    fn shown(elements: &[u8]) -> String {
        format!("{:?}", Text(elements))
    }
}

impl Filling for u16 {
    fn filling(bits: u64) -> u16 {
        let [low, high, ..] = bits.to_le_bytes();
        u16::from_le_bytes([low, high])
    }
}

impl Filling for i64 {
    fn filling(bits: u64) -> i64 {
        i64::from_le_bytes(bits.to_le_bytes())
    }
}

impl Filling for usize {
    fn filling(bits: u64) -> usize {
        usize::try_from(bits >> 33).expect("31 bits")
    }
}

impl Filling for bool {
    fn filling(bits: u64) -> bool {
        bits % 2 == 1
    }
}

/// A buffer between guards.
pub struct Lent<T> {
    before: Vec<T>,
    now: Vec<T>,
    length: usize,
}

impl<T: Filling> Lent<T> {
    /// A buffer of so many elements, filled with anything.
    pub fn new(rng: &mut Rng, length: usize) -> Self {
        let before: Vec<T> = (0..GUARD + length + GUARD)
            .map(|_| T::filling(rng.bits()))
            .collect();
        let now = before.clone();
        Lent {
            before,
            now,
            length,
        }
    }

    /// What the service is lent.
    pub fn buffer(&mut self) -> &mut [T] {
        &mut self.now[GUARD..GUARD + self.length]
    }

    /// What the buffer and its guards hold where so much is due: all else is as it was before.
    fn due(&self, due: &[T]) -> Vec<T> {
        let mut all = self.before.clone();
        all[GUARD..GUARD + due.len()].copy_from_slice(due);
        all
    }

    /// The buffer among such elements, and its guards if they aren't as they were before.
    fn shown(&self, name: &str, all: &[T]) -> String {
        let end = GUARD + self.length;
        let mut shown = format!(
            "\n{name}, {} elements lent: {}",
            self.length,
            T::shown(&all[GUARD..end])
        );
        for (place, guard) in [("before", 0..GUARD), ("behind", end..end + GUARD)] {
            if self.now[guard.clone()] != self.before[guard.clone()] {
                shown += &format!("\n{place} {name}: {}", T::shown(&all[guard]));
            }
        }
        shown
    }
}

/// A number that a service may write.
pub struct Number<T> {
    before: T,
    now: T,
}

impl<T: Filling> Number<T> {
    /// A number that is anything.
    pub fn new(rng: &mut Rng) -> Self {
        let before = T::filling(rng.bits());
        Number {
            before,
            now: before,
        }
    }

    /// What the service is lent.
    pub fn place(&mut self) -> &mut T {
        &mut self.now
    }
}

/// What was lent to a service, with its name and what is due to it.
pub trait Written {
    /// What it is called.
    fn name(&self) -> &'static str;
    /// Whether it is long enough.
    fn is_enough(&self) -> bool;
    /// Whether it holds what is due, or after a refusal what it held before.
    fn is_right(&self, answered: bool) -> bool;
    /// What it should hold, and what it holds.
    fn shown(&self, answered: bool) -> [String; 2];
}

impl<T: Filling> Written for (&'static str, &Lent<T>, &[T]) {
    fn name(&self) -> &'static str {
        self.0
    }

    fn is_enough(&self) -> bool {
        fits(self.2.len(), self.1.length).is_ok()
    }

    fn is_right(&self, answered: bool) -> bool {
        self.1.now == self.1.due(if answered { self.2 } else { &[] })
    }

    fn shown(&self, answered: bool) -> [String; 2] {
        let (name, lent) = (self.0, self.1);
        let due = lent.due(if answered { self.2 } else { &[] });
        [lent.shown(name, &due), lent.shown(name, &lent.now)]
    }
}

impl<T: Filling> Written for (&'static str, &Number<T>, T) {
    fn name(&self) -> &'static str {
        self.0
    }

    fn is_enough(&self) -> bool {
        true
    }

    fn is_right(&self, answered: bool) -> bool {
        self.1.now == if answered { self.2 } else { self.1.before }
    }

    fn shown(&self, answered: bool) -> [String; 2] {
        let (name, number) = (self.0, self.1);
        let due = if answered { self.2 } else { number.before };
        [due, number.now].map(|value| format!("\n{name}: {value:?}"))
    }
}

/// Compares a service's answer, and all that it was lent, with what is due: the refusal of
/// the input if there is one, then 13 exactly if a buffer is short, else everything.
pub fn compare(
    service: &'static str,
    answer: u32,
    refusal: Option<Refusal>,
    given: &Given,
    lent: &[&dyn Written],
) -> Compared {
    let short = lent.iter().any(|written| !written.is_enough());
    let due = match refusal {
        Some(refusal) => u32::from(refusal),
        None if short => 13,
        None => 0,
    };
    let wrong = lent.iter().find(|written| !written.is_right(due == 0));
    let fault = match wrong {
        _ if answer != due => format!("the core answers {answer}, {due} is due"),
        Some(wrong) => format!("after the answer {answer} {} is wrong", wrong.name()),
        None => return Ok(()),
    };
    let mut shown = [format!("answer {due}"), format!("answer {answer}")];
    for written in lent {
        for (all, one) in shown.iter_mut().zip(written.shown(due == 0)) {
            all.push_str(&one);
        }
    }
    let [due, answered] = &shown;
    Err(Difference::new(
        service,
        fault,
        given,
        &Words(due),
        &Words(answered),
    ))
}

/// Compares a service that writes one text into a buffer of this length, where this text or this
/// refusal is due, and gives what it has written, if it answered.
pub fn one_text(
    service: &'static str,
    rng: &mut Rng,
    given: &Given,
    due: &Result<Vec<u8>, Refusal>,
    length: usize,
    write: impl FnOnce(&mut [u8], &mut usize) -> u32,
) -> Result<Option<Vec<u8>>, Difference> {
    let mut text = Lent::new(rng, length);
    let mut written = Number::new(rng);
    let answer = write(text.buffer(), written.place());
    let text_due = due.as_deref().unwrap_or_default();
    compare(
        service,
        answer,
        due.as_ref().err().copied(),
        given,
        &[
            &("text", &text, text_due),
            &("written", &written, text_due.len()),
        ],
    )?;
    Ok((answer == 0).then(|| text.buffer()[..text_due.len()].to_vec()))
}

/// Lengths to lend buffers with to which so much is due: exact, one short, ample, empty.
///
/// All four for every buffer, among others that are long enough, and a mixture; only the
/// exact ones and a mixture if the service is to be called `seldom`.
pub fn lengths<const K: usize>(rng: &mut Rng, due: [usize; K], seldom: bool) -> Vec<[usize; K]> {
    let mut mixture = due;
    for (place, length) in mixture.iter_mut().enumerate() {
        let four = four(rng, due[place]);
        *length = rng.pick(&four);
    }
    let mut all = vec![due, mixture];
    if seldom {
        return all;
    }
    for place in 0..K {
        for length in four(rng, due[place]) {
            let mut lengths = due.map(|due| due + rng.pick(&[0, 0, 3]));
            lengths[place] = length;
            all.push(lengths);
        }
    }
    all
}

/// The four lengths of one buffer to which so much is due.
pub fn four(rng: &mut Rng, due: usize) -> [usize; 4] {
    let more = rng.between(1, 40);
    [due, due.saturating_sub(1), due + more, 0]
}

/// What is due to a buffer: so many elements, or after a refusal any number, which won't
/// matter.
pub fn due_length<T>(rng: &mut Rng, due: Option<&[T]>) -> usize {
    due.map_or_else(|| rng.below(700), <[T]>::len)
}

#[cfg(test)]
mod tests {
    use super::*;

    /// The comparison of a buffer of three elements, to which two are due, after a change.
    fn compared(answer: u32, refusal: Option<Refusal>, change: impl Fn(&mut [u8])) -> Compared {
        let mut lent = Lent::new(&mut Rng::new(1), 3);
        change(&mut lent.now);
        let due = &b"05"[..];
        compare("writer", answer, refusal, &[], &[&("text", &lent, due)])
    }

    fn write(all: &mut [u8]) {
        all[GUARD..GUARD + 2].copy_from_slice(b"05");
    }

    #[test]
    fn what_is_due_is_no_difference() {
        assert!(compared(0, None, write).is_ok());
        assert!(compared(4, Some(4), |_| ()).is_ok());
    }

    #[test]
    fn every_change_beyond_that_is_a_difference() {
        assert!(compared(13, None, |_| ()).is_err());
        assert!(compared(0, Some(4), write).is_err());
        assert!(compared(4, Some(4), write).is_err());
        assert!(compared(0, None, |_| ()).is_err());
        for place in [0, GUARD - 1, GUARD, GUARD + 2, GUARD + 3, 2 * GUARD + 2] {
            let changed = |all: &mut [u8]| {
                write(all);
                all[place] ^= 1;
            };
            assert!(compared(0, None, changed).is_err(), "{place}");
        }
    }

    #[test]
    fn each_of_several_buffers_is_short_exact_and_long_among_others_that_are_enough() {
        for seed in 0..40 {
            let mut rng = Rng::new(seed);
            let all = lengths(&mut rng, [7; 5], false);
            for place in 0..5 {
                let enough = |lengths: &&[usize; 5]| {
                    let mut others = (0..5).filter(|&other| other != place);
                    others.all(|other| lengths[other] >= 7)
                };
                let here: Vec<usize> = all.iter().filter(enough).map(|one| one[place]).collect();
                assert!([0, 6, 7].iter().all(|length| here.contains(length)));
                assert!(here.iter().any(|&length| length > 7));
            }
        }
    }

    #[test]
    fn a_short_buffer_gets_13_and_nothing_else() {
        let lent = Lent::new(&mut Rng::new(1), 1);
        let compared = |answer| {
            let written: &dyn Written = &("text", &lent, &b"05"[..]);
            compare("writer", answer, None, &[], &[written])
        };
        assert!(compared(13).is_ok());
        assert!(compared(0).is_err());
    }
}
