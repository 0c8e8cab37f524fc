//! Streams of slips made from a seed.

mod load;
mod random;
mod stream;
pub mod write;

pub use load::{Load, load};
pub use stream::stream;
