//! The numbers with which a service turns its input down.

/// A refusal's number, as printed in a frame 0f.
pub type Refusal = u8;

/// A broken line, a wrong kind or length, missing frames, bytes left over.
pub const BROKEN_TEXT: Refusal = 1;
/// A count of vertices outside 2 to 256.
pub const BAD_VERTEX_COUNT: Refusal = 2;
/// A reserved edge, or a candidate for it, that isn't below twice the count of vertices.
pub const BAD_RESERVED: Refusal = 3;
/// An edge number other than its place; an end too high, or ends out of order, of a span too.
pub const BAD_EDGE: Refusal = 4;
/// A cost outside its limits.
pub const BAD_COST: Refusal = 5;
/// A vertex without exactly four edges.
pub const NOT_FOUR_REGULAR: Refusal = 6;
/// A cut crossed by fewer than four edges.
pub const SMALL_CUT: Refusal = 7;
/// A step at a vertex that is no end of the reserved edge.
pub const NOT_RESERVED_END: Refusal = 8;
/// A step with an edge that is no partner there, or with one partner twice.
pub const NOT_PARTNERS: Refusal = 9;
/// A step with a partner that isn't admissible.
pub const NOT_ADMISSIBLE: Refusal = 10;
/// A step whose x costs less than its y.
pub const X_CHEAPER: Refusal = 11;
/// A dropped edge that isn't one of the last three, or isn't a dearest of them.
pub const BAD_DROP: Refusal = 12;
/// An output buffer shorter than what is due to it.
pub const SHORT_BUFFER: Refusal = 13;
/// A listed edge that is too high or not above the one before.
pub const BAD_LIST: Refusal = 14;
/// A span's weight outside 1 to 4, or its pair of ends not above the one before.
pub const BAD_SPAN: Refusal = 15;
/// More spans than the network has edges, or weights that don't total these.
pub const BAD_TOTAL: Refusal = 16;
/// A step's z isn't the third partner, or its cost isn't the one after the step.
pub const NOT_GIVEN: Refusal = 17;
