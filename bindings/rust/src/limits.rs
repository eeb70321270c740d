//! Document 01's limits, and sizes that are always enough. The C header has the same ones, and `tools/header` compares.

/// A ledger is no shorter; zeros are an empty one.
pub const MIN_LEDGER_BYTES: usize = 4;
/// A ledger is no longer.
pub const MAX_LEDGER_BYTES: usize = 1_048_576;
/// Nodes of a formula; each kind byte is a node.
pub const MAX_NODES: usize = 511;
/// The largest dimension of a formula, and the largest k.
pub const MAX_DIMENSION: u8 = 254;
/// How many dimensions there may be: the largest d.
pub const MAX_D: u8 = 255;
/// The largest dimension of a formula that the producer takes.
pub const MAX_PRODUCER_DIMENSION: u8 = 32;
/// The depth of the deepest node of such a formula, the root being at depth 0.
pub const MAX_PRODUCER_DEPTH: usize = 32;
/// Clauses of a list on the way to a normal form.
pub const MAX_CLAUSES: usize = 256;
/// Bytes of a formula, proved; the longest formulas have 767.
pub const MAX_FORMULA_BYTES: usize = 1_022;
/// Bytes of a formula's text, proved; the longest have 263,928.
pub const MAX_TEXT_BYTES: usize = 527_352;
/// Bytes of a step's line, proved.
pub const MAX_LINE_BYTES: usize = 6_354_504;
/// Bytes of a rule's name.
pub const MAX_NAME_BYTES: usize = 15;
/// Kinds of steps are 1 to 75.
pub const MAX_KIND: u8 = 75;
/// The kind of entails.checked, the only one with an entails judgement.
pub const KIND_ENTAILS: u8 = 30;
/// Bytes of the line that [`facesteps`](crate::facesteps) reads, before byte 10 or the end.
pub const MAX_CLAIM_LINE_BYTES: usize = 4_096;
/// Stack of a thread that calls anything here: enough in all measurements.
pub const STACK_BYTES: usize = 4_194_304;
