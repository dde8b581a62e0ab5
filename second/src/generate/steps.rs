//! Chains by rule in which one step has a wrong z, a wrong cost or another form, alone or together
//! with a fault that is looked at earlier or later.

use super::chains::{chain_text, distant, faulty_step, retired, LEFT_OVER};
use super::shapes::{NARROW_STEP, SHORT_STEP, STEP_COST_FIRST, STEP_WITHOUT_COST, STEP_WITHOUT_Z};
use super::{Aim, Damage, Rng};
use crate::lines::STEP;
use crate::refusal::{
    Refusal, BROKEN_TEXT, NOT_ADMISSIBLE, NOT_GIVEN, NOT_PARTNERS, NOT_RESERVED_END, X_CHEAPER,
};
use crate::texts::{step_fields, write_ending, write_step, Chain, Network, Step};
use crate::working::{as_number, Working};

/// A number that no vertex and no edge has.
const NO_NUMBER: u16 = 65_535;

/// A fault of a step's z, of its cost or of its frame. With a wrong z the cost is right, and with a
/// wrong cost z is.
#[derive(Clone, Copy, Debug, PartialEq, Eq, PartialOrd, Ord)]
pub enum StepFault {
    /// The cost is one too high.
    CostAbove,
    /// The cost is one too low.
    CostBelow,
    /// The cost has the other sign.
    FlippedCost,
    /// The cost that z has before the step.
    CostBefore,
    /// The cost of z with that of x added.
    CostAndX,
    /// The cost of z with that of y added.
    CostAndY,
    /// The cost of z less that of y.
    CostLessY,
    /// The cost differs in its high four bytes alone.
    HighBytes,
    /// The highest cost that the field can say.
    HighestCost,
    /// The lowest cost that the field can say.
    LowestCost,
    /// z is x.
    ZIsX,
    /// z is y.
    ZIsY,
    /// z is the reserved edge.
    ZIsReserved,
    /// z has retired.
    ZIsRetired,
    /// There never was such a z.
    ZIsNoEdge,
    /// There never was such a z, though its low nine bits are right.
    ZLowBits,
    /// z doesn't end at v.
    ZIsDistant,
    /// The cost stands before z, so that both are read as other numbers.
    CostFirst,
    /// v is no end of the reserved edge, and z or its cost is wrong too.
    AndVertex,
    /// x or y is no partner, and z or its cost is wrong too.
    AndPartner,
    /// x or y isn't admissible, and z or its cost is wrong too.
    AndAdmissible,
    /// x costs less than y, and z or its cost is wrong too.
    AndCheaper,
    /// z or its cost is wrong, and the next line is broken.
    BrokenNext,
    /// z or its cost is wrong, and so is the next frame's v or dropped edge.
    WrongNext,
    /// z or its cost is wrong, and a wrong edge is dropped.
    WrongDrop,
    /// z or its cost is wrong, and bytes follow the chain.
    LeftOver,
    /// A broken line, whose z or cost may be wrong too.
    BrokenLine,
    /// The frame has v, x and y alone.
    ShortFrame,
    /// This frame and those of all later steps have v, x and y alone.
    ShortFrames,
    /// The frame lacks the cost.
    WithoutCost,
    /// The frame lacks z.
    WithoutZ,
    /// The cost has four bytes.
    NarrowCost,
}

impl StepFault {
    /// Every fault.
    pub const ALL: [StepFault; 32] = [
        StepFault::CostAbove,
        StepFault::CostBelow,
        StepFault::FlippedCost,
        StepFault::CostBefore,
        StepFault::CostAndX,
        StepFault::CostAndY,
        StepFault::CostLessY,
        StepFault::HighBytes,
        StepFault::HighestCost,
        StepFault::LowestCost,
        StepFault::ZIsX,
        StepFault::ZIsY,
        StepFault::ZIsReserved,
        StepFault::ZIsRetired,
        StepFault::ZIsNoEdge,
        StepFault::ZLowBits,
        StepFault::ZIsDistant,
        StepFault::CostFirst,
        StepFault::AndVertex,
        StepFault::AndPartner,
        StepFault::AndAdmissible,
        StepFault::AndCheaper,
        StepFault::BrokenNext,
        StepFault::WrongNext,
        StepFault::WrongDrop,
        StepFault::LeftOver,
        StepFault::BrokenLine,
        StepFault::ShortFrame,
        StepFault::ShortFrames,
        StepFault::WithoutCost,
        StepFault::WithoutZ,
        StepFault::NarrowCost,
    ];

    /// The refusal that is due.
    pub fn refusal(self) -> Refusal {
        match self {
            StepFault::AndVertex => NOT_RESERVED_END,
            StepFault::AndPartner => NOT_PARTNERS,
            StepFault::AndAdmissible => NOT_ADMISSIBLE,
            StepFault::AndCheaper => X_CHEAPER,
            StepFault::BrokenLine
            | StepFault::ShortFrame
            | StepFault::ShortFrames
            | StepFault::WithoutCost
            | StepFault::WithoutZ
            | StepFault::NarrowCost => BROKEN_TEXT,
            _ => NOT_GIVEN,
        }
    }

    /// Whether a chain can have the fault at such a place: none has retired before the first step.
    pub fn can_be_at(self, place: StepPlace) -> bool {
        self != StepFault::ZIsRetired || place != StepPlace::First
    }
}

/// Where in a chain a step stands.
#[derive(Clone, Copy, Debug, PartialEq, Eq, PartialOrd, Ord)]
pub enum StepPlace {
    /// It is the first one.
    First,
    /// There are steps before it and behind it.
    Middle,
    /// It is the last one.
    Last,
}

impl StepPlace {
    /// Every place.
    pub const ALL: [StepPlace; 3] = [StepPlace::First, StepPlace::Middle, StepPlace::Last];
    /// The fewest vertices of a network whose chains have a step at every place.
    pub const FEWEST_VERTICES: usize = 5;

    /// Such a place among so many steps, if there is one.
    fn among(self, rng: &mut Rng, steps: usize) -> Option<usize> {
        let last = steps.checked_sub(1)?;
        match self {
            StepPlace::First => Some(0),
            StepPlace::Middle if last < 2 => None,
            StepPlace::Middle => Some(rng.between(1, last - 1)),
            StepPlace::Last => Some(last),
        }
    }
}

/// The text of a chain by rule over an accepted network with the given fault of a step at such a
/// place. All else is right, but for what the fault itself says. Gives nothing if the fault can't
/// be had there.
pub fn faulty_chain(
    rng: &mut Rng,
    network: &Network,
    chain: &Chain,
    fault: StepFault,
    place: StepPlace,
) -> Option<Vec<u8>> {
    let place = place.among(rng, chain.steps.len())?;
    let mut working = Working::new(network);
    for &step in &chain.steps[..place] {
        working.split(step);
    }
    let line = faulty_line(rng, network, &working, chain.steps[place], fault)?;
    let whole = chain_text(network, chain);
    let before = &whole[..place * STEP.line_length()];
    let behind = behind(rng, chain, place + 1, fault);
    Some([before, &line, &behind].concat())
}

/// The line of a step with the given fault, before which the network is as given.
fn faulty_line(
    rng: &mut Rng,
    network: &Network,
    working: &Working,
    right: Step,
    fault: StepFault,
) -> Option<Vec<u8>> {
    let fields @ [v, x, y, z, cost] = step_fields(right);
    let mut line = Vec::new();
    match fault {
        StepFault::CostFirst => STEP_COST_FIRST.write([v, x, y, cost, z], &mut line),
        StepFault::ShortFrame | StepFault::ShortFrames => SHORT_STEP.write([v, x, y], &mut line),
        StepFault::WithoutCost => STEP_WITHOUT_COST.write([v, x, y, z], &mut line),
        StepFault::WithoutZ => STEP_WITHOUT_Z.write([v, x, y, cost], &mut line),
        StepFault::NarrowCost => NARROW_STEP.write(fields, &mut line),
        StepFault::AndVertex
        | StepFault::AndPartner
        | StepFault::AndAdmissible
        | StepFault::AndCheaper => {
            let step = earlier_fault(rng, network, working, fault)?;
            write_step(not_given(rng, step), &mut line);
        }
        StepFault::BrokenNext
        | StepFault::WrongNext
        | StepFault::WrongDrop
        | StepFault::LeftOver => write_step(not_given(rng, right), &mut line),
        StepFault::BrokenLine => {
            let wrong = not_given(rng, right);
            write_step(rng.pick(&[right, wrong]), &mut line);
            return Some(broken(rng, &line));
        }
        _ => write_step(
            wrong_number(rng, network, working, right, fault)?,
            &mut line,
        ),
    }
    let mut due = Vec::new();
    write_step(right, &mut due);
    (line != due).then_some(line)
}

/// The step with a number of the fault in place of its z or its cost, which may be the right one by
/// chance.
fn wrong_number(
    rng: &mut Rng,
    network: &Network,
    working: &Working,
    right: Step,
    fault: StepFault,
) -> Option<Step> {
    let [v, x, y, z] = [right.v, right.x, right.y, right.z].map(usize::from);
    let [of_x, of_y, of_z] = [x, y, z].map(|edge| working.cost(edge));
    let with_cost = |cost| Some(Step { cost, ..right });
    let with_z = |z| Some(Step { z, ..right });
    match fault {
        StepFault::CostAbove => with_cost(right.cost + 1),
        StepFault::CostBelow => with_cost(right.cost - 1),
        StepFault::FlippedCost => with_cost(-right.cost),
        StepFault::CostBefore => with_cost(of_z),
        StepFault::CostAndX => with_cost(of_z + of_x),
        StepFault::CostAndY => with_cost(of_z + of_y),
        StepFault::CostLessY => with_cost(of_z - of_y),
        StepFault::HighBytes => with_cost(right.cost + (rng.pick(&[1, -1]) << 32)),
        StepFault::HighestCost => with_cost(i64::MAX),
        StepFault::LowestCost => with_cost(i64::MIN),
        StepFault::ZIsX => with_z(right.x),
        StepFault::ZIsY => with_z(right.y),
        StepFault::ZIsReserved => with_z(as_number(working.reserved())),
        StepFault::ZIsRetired => with_z(as_number(rng.pick_any(&retired(network, working))?)),
        StepFault::ZIsNoEdge => {
            let next = as_number(network.edges.len());
            with_z(rng.pick(&[next, next + 1, 512, NO_NUMBER]))
        }
        StepFault::ZLowBits => {
            let any = as_number(512 * rng.between(1, 127));
            with_z(right.z + rng.pick(&[512, 32_768, any]))
        }
        StepFault::ZIsDistant => with_z(as_number(rng.pick_any(&distant(network, working, v))?)),
        _ => unreachable!("more than a number is wrong"),
    }
}

/// The step with a wrong z or a wrong cost, or with both.
fn not_given(rng: &mut Rng, step: Step) -> Step {
    let (z, cost) = (NO_NUMBER, step.cost + 1);
    rng.pick(&[
        Step { z, ..step },
        Step { cost, ..step },
        Step { z, cost, ..step },
    ])
}

/// A step with a fault that is looked at before its z and its cost.
fn earlier_fault(
    rng: &mut Rng,
    network: &Network,
    working: &Working,
    fault: StepFault,
) -> Option<Step> {
    let due = Some(fault.refusal());
    let aims = Aim::ALL.into_iter().filter(|aim| aim.refusal() == due);
    let aims: Vec<Aim> = aims.collect();
    let aim = rng.pick(&aims);
    faulty_step(rng, network, working, aim)
}

/// The frames of a chain from a step on, and what else follows the faulty one.
fn behind(rng: &mut Rng, chain: &Chain, next: usize, fault: StepFault) -> Vec<u8> {
    let mut steps = chain.steps[next..].to_vec();
    let mut dropped = chain.dropped;
    match (fault, steps.first_mut()) {
        (StepFault::WrongNext, Some(step)) => step.v = NO_NUMBER,
        (StepFault::WrongNext, None) | (StepFault::WrongDrop, _) => dropped = NO_NUMBER,
        _ => {}
    }
    let mut text = Vec::new();
    for step in steps {
        if fault == StepFault::ShortFrames {
            let [v, x, y, _, _] = step_fields(step);
            SHORT_STEP.write([v, x, y], &mut text);
        } else {
            write_step(step, &mut text);
        }
    }
    write_ending(dropped, &mut text);
    match fault {
        StepFault::LeftOver => text.extend_from_slice(rng.pick(&LEFT_OVER)),
        StepFault::BrokenNext => {
            let line = text.iter().position(|&byte| byte == b'\n');
            let rest = text.split_off(line.map_or(0, |feed| feed + 1));
            text = [broken(rng, &text), rest].concat();
        }
        _ => {}
    }
    text
}

/// A line of another length, which no reader takes for the frame that is due.
fn broken(rng: &mut Rng, line: &[u8]) -> Vec<u8> {
    rng.pick(&[Damage::OddDigits, Damage::WrongLength])
        .apply(rng, line)
}
