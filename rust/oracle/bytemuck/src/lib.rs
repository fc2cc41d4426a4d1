//! bytemuck as the reference names it: Debian's crate, and the derives that it lacks.

pub use bytemuck::*;
pub use oracle_derive::{Pod, Zeroable};
