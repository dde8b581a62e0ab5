//! A reader of network texts that is written for speed: one pass over the bytes, in which lines and fields are looked
//! at and degrees are tallied, and nothing is allocated.

use second::lines::{EDGE, HEAD};
use second::refusal::{
    Refusal, BAD_COST, BAD_EDGE, BAD_RESERVED, BAD_VERTEX_COUNT, BROKEN_TEXT, NOT_FOUR_REGULAR,
};
use second::texts::{COST_LIMIT, FEWEST_VERTICES, MOST_VERTICES};

const HEAD_LINE: usize = HEAD.line_length();
const EDGE_LINE: usize = EDGE.line_length();
pub const MOST_EDGES: usize = second::lengths::edge_column(MOST_VERTICES);
/// The edges at each vertex of an accepted network.
const DEGREE: u16 = 4;

/// The digits of fields of one, two and eight bytes.
pub const ONE_BYTE: usize = 2;
pub const TWO_BYTES: usize = 4;
const EIGHT_BYTES: usize = 16;

/// What a character that is no digit counts as: a bit that no digit has.
const NO_DIGIT: u8 = 0x80;
/// What each character counts as.
const VALUES: [u8; 256] = values();

const fn values() -> [u8; 256] {
    let digits = b"0123456789abcdef";
    let mut values = [NO_DIGIT; 256];
    let mut value = 0;
    while value < digits.len() {
        values[digits[value] as usize] = value as u8;
        value += 1;
    }
    values
}

/// A network by columns, and how many edges each vertex has.
pub struct Loaded {
    pub vertices: usize,
    pub reserved: usize,
    pub low: [u16; MOST_EDGES],
    pub high: [u16; MOST_EDGES],
    pub cost: [i64; MOST_EDGES],
    degrees: [u16; MOST_VERTICES],
}

/// Reads a network text and tallies the degrees, which may be any: refusals 1 to 5.
pub fn load(text: &[u8]) -> Result<Loaded, Refusal> {
    let (head, mut rest) = text.split_first_chunk().ok_or(BROKEN_TEXT)?;
    let (vertices, reserved) = read_head(head)?;
    let mut loaded = Loaded {
        vertices,
        reserved,
        low: [0; MOST_EDGES],
        high: [0; MOST_EDGES],
        cost: [0; MOST_EDGES],
        degrees: [0; MOST_VERTICES],
    };
    for place in 0..2 * vertices {
        let (line, behind) = rest.split_first_chunk().ok_or(BROKEN_TEXT)?;
        loaded.read_edge(line, place)?;
        rest = behind;
    }
    if rest.is_empty() {
        Ok(loaded)
    } else {
        Err(BROKEN_TEXT)
    }
}

/// Reads a network text in which every vertex has four edges: refusals 1 to 6. No cut is looked at.
pub fn load_four_regular(text: &[u8]) -> Result<Loaded, Refusal> {
    let loaded = load(text)?;
    let degrees = &loaded.degrees[..loaded.vertices];
    if degrees.iter().all(|&degree| degree == DEGREE) {
        Ok(loaded)
    } else {
        Err(NOT_FOUR_REGULAR)
    }
}

fn read_head(line: &[u8; HEAD_LINE]) -> Result<(usize, usize), Refusal> {
    let mut digits = Digits::new(line);
    let kind = digits.take(ONE_BYTE);
    let vertices = digits.take(TWO_BYTES) as usize;
    let reserved = digits.take(TWO_BYTES) as usize;
    if !digits.end_the_line() || kind != u64::from(HEAD.kind) {
        return Err(BROKEN_TEXT);
    }
    if !(FEWEST_VERTICES..=MOST_VERTICES).contains(&vertices) {
        return Err(BAD_VERTEX_COUNT);
    }
    if reserved >= 2 * vertices {
        return Err(BAD_RESERVED);
    }
    Ok((vertices, reserved))
}

impl Loaded {
    /// Reads the line of the edge at a place.
    #[inline(always)]
    fn read_edge(&mut self, line: &[u8; EDGE_LINE], place: usize) -> Result<(), Refusal> {
        let mut digits = Digits::new(line);
        let kind = digits.take(ONE_BYTE);
        let number = digits.take(TWO_BYTES) as usize;
        let low = digits.take(TWO_BYTES) as usize;
        let high = digits.take(TWO_BYTES) as usize;
        let cost = digits.take(EIGHT_BYTES).cast_signed();
        if !digits.end_the_line() || kind != u64::from(EDGE.kind) {
            return Err(BROKEN_TEXT);
        }
        if number != place || high <= low || self.vertices <= high {
            return Err(BAD_EDGE);
        }
        if !(-COST_LIMIT..=COST_LIMIT).contains(&cost) {
            return Err(BAD_COST);
        }
        self.low[place] = low as u16;
        self.high[place] = high as u16;
        self.cost[place] = cost;
        self.degrees[low] += 1;
        self.degrees[high] += 1;
        Ok(())
    }
}

/// The characters of a line, taken from its start on.
pub struct Digits<'line, const LENGTH: usize> {
    line: &'line [u8; LENGTH],
    taken: usize,
    /// The bits of all that was taken, so that a character that is no digit is noticed once for a line.
    bits: u8,
}

impl<'line, const LENGTH: usize> Digits<'line, LENGTH> {
    #[inline(always)]
    pub fn new(line: &'line [u8; LENGTH]) -> Self {
        Digits {
            line,
            taken: 0,
            bits: 0,
        }
    }

    /// The number that the next digits stand for.
    #[inline(always)]
    pub fn take(&mut self, count: usize) -> u64 {
        let mut number = 0;
        for _ in 0..count {
            let value = VALUES[usize::from(self.line[self.taken])];
            self.bits |= value;
            number = (number << 4) | u64::from(value);
            self.taken += 1;
        }
        number
    }

    /// Whether all that was taken are digits, and only a line feed follows them.
    #[inline(always)]
    pub fn end_the_line(&self) -> bool {
        self.bits & NO_DIGIT == 0 && self.line[self.taken..] == *b"\n"
    }
}

#[cfg(test)]
mod tests {
    use second::generate::{self, Crowd, FrameFault, NetworkAim, Rng, FEWEST_CROWDING};
    use second::refusal::SMALL_CUT;
    use second::{check_network, read_network};

    use super::*;

    const ROUNDS: u64 = 300;

    /// The second program gives the same columns and the same refusals, but that it looks at cuts too.
    fn assert_read_alike(text: &[u8]) {
        let before_cuts = check_network(text).err();
        let before_cuts = before_cuts.filter(|&refusal| refusal != SMALL_CUT);
        assert_eq!(load_four_regular(text).err(), before_cuts);
        match (load(text), read_network(text)) {
            (Ok(loaded), Ok(network)) => {
                assert_eq!(loaded.vertices, network.vertices);
                assert_eq!(loaded.reserved, network.reserved);
                for (place, edge) in network.edges.iter().enumerate() {
                    assert_eq!(loaded.low[place], edge.low);
                    assert_eq!(loaded.high[place], edge.high);
                    assert_eq!(loaded.cost[place], edge.cost);
                }
            }
            (loaded, network) => assert_eq!(loaded.err(), network.err()),
        }
    }

    #[test]
    fn aimed_and_damaged_networks() {
        for seed in 0..ROUNDS {
            let mut rng = Rng::new(seed);
            let vertices = generate::size(&mut rng);
            let text = generate::text(&generate::network(&mut rng, vertices));
            assert_read_alike(&text);
            assert_read_alike(&generate::damage(&mut rng, &text));
            for aim in NetworkAim::ALL {
                assert_read_alike(&generate::aimed_network(&mut rng, aim, vertices).0);
            }
        }
    }

    #[test]
    fn crowded_networks() {
        for seed in 0..ROUNDS {
            let mut rng = Rng::new(seed);
            let vertices = generate::size(&mut rng);
            let crowd = rng.pick(&Crowd::ALL);
            let network = generate::crowded_network(&mut rng, crowd, vertices);
            for fault in FrameFault::ALL {
                let place = rng.between(FEWEST_CROWDING, network.edges.len() - 1);
                let text = generate::faulty_text(&mut rng, &network, fault, place);
                assert_eq!(load_four_regular(&text).err(), Some(fault.refusal()));
                assert_read_alike(&text);
            }
        }
    }
}
