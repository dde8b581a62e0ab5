//! Lines of hexadecimal digits, and the frames they carry.

use crate::refusal::{Refusal, BROKEN_TEXT};

/// One field of a frame, with its width in bytes; the high byte comes first.
#[derive(Clone, Copy, Debug)]
pub enum Field {
    /// A number from zero upwards.
    Unsigned(usize),
    /// A number in two's complement.
    Signed(usize),
}

impl Field {
    const fn width(self) -> usize {
        match self {
            Field::Unsigned(width) | Field::Signed(width) => width,
        }
    }

    /// The number that the field's digits stand for.
    fn decode(self, digits: &[u8]) -> Result<i64, Refusal> {
        let value = number(digits)?;
        Ok(match self {
            Field::Unsigned(_) => value,
            Field::Signed(width) => {
                let unused = 64 - 8 * width;
                (value << unused) >> unused
            }
        })
    }
}

/// The shape of one kind of frame: its first byte and the fields behind it.
#[derive(Clone, Copy, Debug)]
pub struct Shape<const FIELDS: usize> {
    /// The frame's first byte.
    pub kind: u8,
    /// The fields in their order.
    pub fields: [Field; FIELDS],
}

/// The cost of an edge, of a span, or of an edge after a step.
const COST: Field = Field::Signed(8);

/// Count of vertices, reserved edge.
pub const HEAD: Shape<2> = Shape {
    kind: 0x01,
    fields: [Field::Unsigned(2), Field::Unsigned(2)],
};
/// Edge number, lower end, higher end, cost.
pub const EDGE: Shape<4> = Shape {
    kind: 0x02,
    fields: [
        Field::Unsigned(2),
        Field::Unsigned(2),
        Field::Unsigned(2),
        COST,
    ],
};
/// The vertex v, partner x, partner y, the third partner z, z's cost after the step.
pub const STEP: Shape<5> = Shape {
    kind: 0x03,
    fields: [
        Field::Unsigned(2),
        Field::Unsigned(2),
        Field::Unsigned(2),
        Field::Unsigned(2),
        COST,
    ],
};
/// Dropped edge.
pub const ENDING: Shape<1> = Shape {
    kind: 0x04,
    fields: [Field::Unsigned(2)],
};
/// Kept or listed edge.
pub const LISTED: Shape<1> = Shape {
    kind: 0x05,
    fields: [Field::Unsigned(2)],
};
/// Kept cost, cost of all edges but the reserved one.
pub const SUMS: Shape<2> = Shape {
    kind: 0x06,
    fields: [Field::Signed(8), Field::Signed(8)],
};
/// Count of vertices, reserved edge, count of spans.
pub const TABLE_HEAD: Shape<3> = Shape {
    kind: 0x08,
    fields: [Field::Unsigned(2), Field::Unsigned(2), Field::Unsigned(2)],
};
/// Lower end, higher end, doubled weight, cost.
pub const SPAN: Shape<4> = Shape {
    kind: 0x09,
    fields: [
        Field::Unsigned(2),
        Field::Unsigned(2),
        Field::Unsigned(1),
        COST,
    ],
};
/// Edge, rule, step.
pub const REASON: Shape<3> = Shape {
    kind: 0x0a,
    fields: [Field::Unsigned(2), Field::Unsigned(1), Field::Unsigned(2)],
};
/// Refusal number.
pub const REFUSED: Shape<1> = Shape {
    kind: 0x0f,
    fields: [Field::Unsigned(1)],
};

impl<const FIELDS: usize> Shape<FIELDS> {
    /// Bytes of the frame itself.
    const fn frame_length(&self) -> usize {
        let mut length = 1;
        let mut place = 0;
        while place < FIELDS {
            length += self.fields[place].width();
            place += 1;
        }
        length
    }

    /// Characters of the line that carries the frame, line feed included.
    pub const fn line_length(&self) -> usize {
        2 * self.frame_length() + 1
    }

    /// Takes the next line and gives the fields of the frame in it.
    pub fn read(&self, lines: &mut Lines) -> Result<[i64; FIELDS], Refusal> {
        let (kind, mut rest) = lines.next_line(self.line_length())?.split_at(2);
        if number(kind)? != i64::from(self.kind) {
            return Err(BROKEN_TEXT);
        }
        let mut values = [0; FIELDS];
        for (value, field) in values.iter_mut().zip(self.fields) {
            let (digits, behind) = rest.split_at(2 * field.width());
            *value = field.decode(digits)?;
            rest = behind;
        }
        Ok(values)
    }

    /// Appends the line for the given fields; of each value the low bytes are written.
    pub fn write(&self, values: [i64; FIELDS], text: &mut Vec<u8>) {
        push_byte(self.kind, text);
        for (field, value) in self.fields.iter().zip(values) {
            let bytes = value.to_be_bytes();
            for &byte in &bytes[bytes.len() - field.width()..] {
                push_byte(byte, text);
            }
        }
        text.push(b'\n');
    }
}

/// The part of a text that hasn't been read yet.
#[derive(Clone, Debug)]
pub struct Lines<'text> {
    rest: &'text [u8],
}

impl<'text> Lines<'text> {
    /// Starts at the text's first byte.
    pub fn new(text: &'text [u8]) -> Self {
        Lines { rest: text }
    }

    /// Whether every byte has been read.
    pub fn at_end(&self) -> bool {
        self.rest.is_empty()
    }

    /// Refuses bytes left over.
    pub fn finish(&self) -> Result<(), Refusal> {
        if self.at_end() {
            Ok(())
        } else {
            Err(BROKEN_TEXT)
        }
    }

    /// Takes so many characters, which end with a line feed, and gives those before it. An
    /// earlier line feed among them is no digit.
    fn next_line(&mut self, length: usize) -> Result<&'text [u8], Refusal> {
        let (line, rest) = self.rest.split_at_checked(length).ok_or(BROKEN_TEXT)?;
        self.rest = rest;
        line.strip_suffix(b"\n").ok_or(BROKEN_TEXT)
    }
}

/// The number of at most 16 digits; 16 of them have all bits, the sign among them.
fn number(digits: &[u8]) -> Result<i64, Refusal> {
    digits.iter().try_fold(0, |value, &character| {
        let digit = match character {
            b'0'..=b'9' => character - b'0',
            b'a'..=b'f' => character - b'a' + 10,
            _ => return Err(BROKEN_TEXT),
        };
        Ok((value << 4) | i64::from(digit))
    })
}

fn push_byte(byte: u8, text: &mut Vec<u8>) {
    const DIGITS: &[u8; 16] = b"0123456789abcdef";
    text.push(DIGITS[usize::from(byte >> 4)]);
    text.push(DIGITS[usize::from(byte & 15)]);
}

#[cfg(test)]
mod tests {
    use super::*;

    /// The fields on the first line of a text.
    fn read<const FIELDS: usize>(
        shape: Shape<FIELDS>,
        text: &[u8],
    ) -> Result<[i64; FIELDS], Refusal> {
        shape.read(&mut Lines::new(text))
    }

    /// What is written for such fields is read again.
    fn assert_read_again<const FIELDS: usize>(shape: Shape<FIELDS>, fields: [i64; FIELDS]) {
        let mut text = Vec::new();
        shape.write(fields, &mut text);
        assert_eq!(read(shape, &text), Ok(fields));
    }

    /// None of these texts begins with a frame of the shape.
    fn assert_broken<const FIELDS: usize>(shape: Shape<FIELDS>, texts: &[&[u8]]) {
        for text in texts {
            assert_eq!(read(shape, text), Err(BROKEN_TEXT));
        }
    }

    #[test]
    fn lengths_of_the_ten_kinds() {
        assert_eq!(HEAD.line_length(), 11);
        assert_eq!(EDGE.line_length(), 31);
        assert_eq!(STEP.line_length(), 35);
        assert_eq!(ENDING.line_length(), 7);
        assert_eq!(LISTED.line_length(), 7);
        assert_eq!(SUMS.line_length(), 35);
        assert_eq!(TABLE_HEAD.line_length(), 15);
        assert_eq!(SPAN.line_length(), 29);
        assert_eq!(REASON.line_length(), 13);
        assert_eq!(REFUSED.line_length(), 5);
    }

    /// Numbers of eight bytes, among them ones that have another value or another sign in four.
    const NUMBERS: [i64; 11] = [
        0,
        1,
        -1,
        0x7fff_ffff,
        0x8000_0000,
        0xffff_ffff,
        0x1_0000_0000,
        -0x8000_0001,
        -0x1_0000_0000,
        i64::MAX,
        i64::MIN,
    ];

    #[test]
    fn what_is_written_is_read_again() {
        for number in NUMBERS {
            assert_read_again(EDGE, [511, 0, 65_535, number]);
            assert_read_again(STEP, [0, 65_535, 511, 256, number]);
            assert_read_again(SPAN, [0, 65_535, 255, number]);
            assert_read_again(SUMS, [number, -1]);
        }
        for fields in [[0, 0, 0], [511, 5, 254], [65_535, 255, 65_535]] {
            assert_read_again(REASON, fields);
        }
    }

    #[test]
    fn the_first_bit_of_a_signed_field_is_its_sign() {
        for width in 1..=8 {
            let lowest = ["80", &"00".repeat(width - 1)].concat();
            let highest = ["7f", &"ff".repeat(width - 1)].concat();
            let [lowest, highest] =
                [lowest, highest].map(|digits| Field::Signed(width).decode(digits.as_bytes()));
            let half = 1_i128 << (8 * width - 1);
            assert_eq!(lowest.map(i128::from), Ok(-half));
            assert_eq!(highest.map(i128::from), Ok(half - 1));
        }
    }

    #[test]
    fn faults_of_form() {
        let edge = b"02000000010002fffffffffffffffa\n";
        assert_eq!(read(EDGE, edge), Ok([0, 1, 2, -6]));
        let broken: &[&[u8]] = &[
            b"",
            b"\n",
            b"02000000010002fffffffffffffffa",
            b"02000000010002FFFFFFFFFFFFFFFA\n",
            b"02000000010002fffffffffffffffa\r\n",
            b"02000000010002fffffffffffffff\n",
            b"02000000010002fffffffffffffffa0\n",
            b"02000000010002fffffffffffffffa00\n",
            b"02000000010002fffffffffffff\n",
            b"03000000010002fffffffffffffffa\n",
            b" 2000000010002fffffffffffffffa\n",
            b"\n02000000010002fffffffffffffffa\n",
            // A cost of four bytes, alone and with a frame behind it.
            b"02000000010002fffffffa\n",
            b"02000000010002fffffffa\n02000100010002fffffffa\n",
        ];
        assert_broken(EDGE, broken);
        let step = b"030001000400050001fffffffffffffffe\n";
        assert_eq!(read(STEP, step), Ok([1, 4, 5, 1, -2]));
        let broken: &[&[u8]] = &[
            b"030001000400050001fffffffffffffffe",
            b"030001000400050001FFFFFFFFFFFFFFFE\n",
            b"030001000400050001fffffffffffffffe00\n",
            b"030001000400050001fffffffffffff\n",
            // A cost of four bytes.
            b"030001000400050001fffffffe\n",
            // Without the cost, without z, and without both, with frames behind it.
            b"030001000400050001\n",
            b"03000100040005fffffffffffffffe\n",
            b"03000100040005\n03000100040005\n040003\n",
        ];
        assert_broken(STEP, broken);
        let span = b"09000100020afffffffffffffffa\n";
        assert_eq!(read(SPAN, span), Ok([1, 2, 10, -6]));
        let broken: &[&[u8]] = &[
            b"09000100020afffffffffffffffa",
            b"09000100020afffffffffffffffa00\n",
            b"09000100020afffffffffffff\n",
            // A cost of four bytes, alone and with a frame behind it.
            b"09000100020afffffffa\n",
            b"09000100020afffffffa\n09000100030afffffffa\n",
        ];
        assert_broken(SPAN, broken);
    }
}
