//! An independent second program for the listing of pair statuses.
//!
//! It is written from the exact rules alone and as plainly as they allow, so
//! that another lister can be compared with it byte by byte, and the library of
//! include/skeleton.h call by call.

pub mod averages;
#[cfg(feature = "driver")]
pub mod bench;
pub mod call;
pub mod calls;
pub mod certificate;
pub mod compare;
pub mod damage;
pub mod demands;
pub mod driver;
pub mod edges;
pub mod inside;
pub mod lent;
#[cfg(feature = "driver")]
pub mod library;
pub mod other;
pub mod pieces;
pub mod plane;
pub mod plates;
pub mod random;
pub mod refusal;
pub mod rules;
pub mod search;
pub mod shrink;
#[cfg(feature = "driver")]
pub mod stack;
pub mod text;

#[cfg(test)]
mod literal;
#[cfg(test)]
mod worked;
