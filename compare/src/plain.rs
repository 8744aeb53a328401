//! Document 01's work calls written plainly, from document 01 and not from the Rust: a second opinion beside the proved
//! library, above all on refusals, since the Rust refuses nothing.
//!
//! Pure and slow, in the order of document 01: `work` is the state that a caller lends, `pending` reads its records, `sound`
//! has a function for each clause of the sentence on soundness, `verdict` the refusals of each call, `calls` and `digest` the
//! calls. A refused call returns its number before anything is changed. `side` runs recorded calls on all this.

pub mod calls;
pub mod digest;
pub mod melt;
pub mod overflow;
pub mod page;
pub mod pending;
pub mod side;
pub mod sound;
pub mod verdict;
pub mod work;
