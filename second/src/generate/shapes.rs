//! Shapes that no frame has: costs of four bytes, the fields of another kind, and steps that lack
//! some of theirs or have them in another order.

use crate::lines::{Field, Shape, EDGE, SPAN, STEP};

/// An edge whose cost has four bytes.
pub const NARROW_EDGE: Shape<4> = with_narrow_cost(EDGE);
/// A span whose cost has four bytes.
pub const NARROW_SPAN: Shape<4> = with_narrow_cost(SPAN);
/// A step whose cost has four bytes.
pub const NARROW_STEP: Shape<5> = with_narrow_cost(STEP);
/// A step with v, x and y alone.
pub const SHORT_STEP: Shape<3> = step_with([0, 1, 2]);
/// A step with z and without its cost.
pub const STEP_WITHOUT_COST: Shape<4> = step_with([0, 1, 2, 3]);
/// A step with the cost of z and without z.
pub const STEP_WITHOUT_Z: Shape<4> = step_with([0, 1, 2, 4]);
/// A step with the cost of z before z: it has the length of a step.
pub const STEP_COST_FIRST: Shape<5> = step_with([0, 1, 2, 4, 3]);
/// The kind of an edge with the fields of a span.
pub const EDGE_AS_SPAN: Shape<4> = Shape {
    kind: EDGE.kind,
    fields: SPAN.fields,
};
/// The kind of a span with the fields of an edge.
pub const SPAN_AS_EDGE: Shape<4> = Shape {
    kind: SPAN.kind,
    fields: EDGE.fields,
};

/// A step with its fields at these places, in this order.
const fn step_with<const FIELDS: usize>(places: [usize; FIELDS]) -> Shape<FIELDS> {
    let mut fields = [STEP.fields[0]; FIELDS];
    let mut place = 0;
    while place < FIELDS {
        fields[place] = STEP.fields[places[place]];
        place += 1;
    }
    Shape {
        kind: STEP.kind,
        fields,
    }
}

/// The shape with a last field, the cost, of four bytes.
const fn with_narrow_cost<const FIELDS: usize>(mut shape: Shape<FIELDS>) -> Shape<FIELDS> {
    shape.fields[FIELDS - 1] = Field::Signed(4);
    shape
}

#[cfg(test)]
mod tests {
    use super::*;

    #[test]
    fn none_has_the_length_of_its_kind() {
        for (shape, right) in [
            (NARROW_EDGE, EDGE),
            (EDGE_AS_SPAN, EDGE),
            (NARROW_SPAN, SPAN),
            (SPAN_AS_EDGE, SPAN),
        ] {
            assert_eq!(shape.kind, right.kind);
            assert_ne!(shape.line_length(), right.line_length());
        }
        let steps = [
            SHORT_STEP.line_length(),
            STEP_WITHOUT_COST.line_length(),
            NARROW_STEP.line_length(),
            STEP_WITHOUT_Z.line_length(),
        ];
        assert_eq!(steps, [15, 19, 27, 31]);
        assert!(!steps.contains(&STEP.line_length()));
    }

    #[test]
    fn fields_in_another_order_have_the_length_of_their_kind() {
        assert_eq!(STEP_COST_FIRST.kind, STEP.kind);
        assert_eq!(STEP_COST_FIRST.line_length(), STEP.line_length());
    }
}
