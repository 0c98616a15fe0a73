//! An evaluator of four-direction box splines by their recurrence, in exact arithmetic. "The article" is the first of the
//! sources in docs/SPECIFICATION.md. Program `evaluator` prints what it computes; the harness of the C interface and the
//! benchmark link it.

pub mod calls;
pub mod field;
pub mod formats;
pub mod interpolation;
pub mod lent;
pub mod literal;
pub mod live;
pub mod net;
pub mod placing;
pub mod point;
pub mod query;
pub mod random;
pub mod ratio;
pub mod recurrence;
pub mod sha256;
pub mod shares;
pub mod unit;
pub mod value;
pub mod vectors;
