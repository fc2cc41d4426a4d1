//! What is private in the modules of the three kinds.

pub(crate) use super::banded::reach as banded;
pub(crate) use super::catgegoric::reach as catgegoric;
pub(crate) use super::linear::reach as linear;
