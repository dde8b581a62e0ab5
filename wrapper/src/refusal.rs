//! The refusals by name.

use std::error::Error;
use std::fmt;

/// Why a service turned its input down.
#[derive(Clone, Copy, Debug, PartialEq, Eq, PartialOrd, Ord, Hash)]
#[repr(u32)]
pub enum Refusal {
    /// A broken line, a wrong kind or length, a missing frame, bytes left over; columns of a wrong length.
    Form = 1,
    /// The number of vertices is not 2 to 256.
    Vertices = 2,
    /// The reserved edge, or a candidate for it, is none of the network's.
    Reserved = 3,
    /// An edge out of its place, or the ends of an edge or a span are not two vertices of the network, the lower one
    /// first.
    Edge = 4,
    /// A cost below -1000000000000 or above 1000000000000.
    Cost = 5,
    /// A vertex without degree 4.
    Degree = 6,
    /// A cut that fewer than four edges cross.
    Cut = 7,
    /// A step's v is no end of the reserved edge.
    StepVertex = 8,
    /// A step's x or y is no partner at v, or they are one.
    StepPartner = 9,
    /// A step's x or y is not admissible.
    Admissible = 10,
    /// A step's x costs less than its y.
    CheaperX = 11,
    /// The dropped edge is none of the last three, or cheaper than another of them.
    Dropped = 12,
    /// A buffer is too short for what is due to it.
    ShortBuffer = 13,
    /// A listed edge is none of the network's, or not above the one before it.
    Listed = 14,
    /// A span's doubled weight is not 1 to 4, or its pair of ends is not above the one before it.
    Span = 15,
    /// More spans than the network has edges, or doubled weights that do not total as many.
    Total = 16,
    /// A step's z is not the third partner at v, or its cost is not the one after the step.
    NotGiven = 17,
}

impl Refusal {
    /// Every refusal, by its number.
    pub const ALL: [Refusal; 17] = [
        Refusal::Form,
        Refusal::Vertices,
        Refusal::Reserved,
        Refusal::Edge,
        Refusal::Cost,
        Refusal::Degree,
        Refusal::Cut,
        Refusal::StepVertex,
        Refusal::StepPartner,
        Refusal::Admissible,
        Refusal::CheaperX,
        Refusal::Dropped,
        Refusal::ShortBuffer,
        Refusal::Listed,
        Refusal::Span,
        Refusal::Total,
        Refusal::NotGiven,
    ];

    /// The number that the services answer with.
    pub fn number(self) -> u32 {
        self as u32
    }

    /// What is wrong, in words.
    fn words(self) -> &'static str {
        match self {
            Refusal::Form => "the form is broken",
            Refusal::Vertices => "the number of vertices is not 2 to 256",
            Refusal::Reserved => {
                "the reserved edge, or a candidate for it, is none of the network's"
            }
            Refusal::Edge => {
                "an edge is out of its place, or the ends of an edge or a span are wrong"
            }
            Refusal::Cost => "a cost is beyond its limits",
            Refusal::Degree => "a vertex has not degree 4",
            Refusal::Cut => "fewer than four edges cross a cut",
            Refusal::StepVertex => "a step's v is no end of the reserved edge",
            Refusal::StepPartner => "a step's x or y is no partner at v, or they are one",
            Refusal::Admissible => "a step's x or y is not admissible",
            Refusal::CheaperX => "a step's x costs less than its y",
            Refusal::Dropped => "the dropped edge is none of the last three or not a dearest",
            Refusal::ShortBuffer => "a buffer is too short",
            Refusal::Listed => "a listed edge is none of the network's or does not rise",
            Refusal::Span => "a span's doubled weight is not 1 to 4 or its ends do not rise",
            Refusal::Total => "the spans do not stand for as many edges as the network has",
            Refusal::NotGiven => "a step's z or its cost is not what the step gives",
        }
    }

    /// A service's answer: 0, or a refusal's number.
    pub(crate) fn judge(answer: u32) -> Result<(), Refusal> {
        match answer {
            0 => Ok(()),
            number => Err(Refusal::try_from(number).expect("the services answer 0 to 17")),
        }
    }
}

impl TryFrom<u32> for Refusal {
    type Error = u32;

    /// The refusal of a number from 1 to 17; any other number comes back as the error.
    fn try_from(number: u32) -> Result<Refusal, u32> {
        Refusal::ALL
            .into_iter()
            .find(|refusal| refusal.number() == number)
            .ok_or(number)
    }
}

impl fmt::Display for Refusal {
    fn fmt(&self, f: &mut fmt::Formatter<'_>) -> fmt::Result {
        write!(f, "refusal {}: {}", self.number(), self.words())
    }
}

impl Error for Refusal {}

#[cfg(test)]
mod tests {
    use super::*;

    #[test]
    fn numbers_and_names_agree() {
        for (place, refusal) in (1..).zip(Refusal::ALL) {
            assert_eq!(refusal.number(), place);
            assert_eq!(Refusal::try_from(place), Ok(refusal));
            assert_eq!(Refusal::judge(place), Err(refusal));
        }
        assert_eq!(Refusal::judge(0), Ok(()));
        for none in [0, 18, u32::MAX] {
            assert_eq!(Refusal::try_from(none), Err(none));
        }
    }

    #[test]
    fn a_refusal_prints_its_number() {
        let printed = Refusal::Cut.to_string();
        assert_eq!(printed, "refusal 7: fewer than four edges cross a cut");
    }
}
