//! The comparison of the library with the reference: the same inputs to both, and every word of both answers.
//!
//! A call to compare is a [`Subject`](engine::Subject), in a file of `subjects`; [`plan::runs`] lists them with their
//! inputs. A new one is a new file there and a line in that list. What the reference cannot hold is compared with
//! [`rules`] and [`cards`], docs/RULES.md read a second time.

pub mod cards;
pub mod engine;
pub mod plan;
pub mod random;
pub mod rules;
pub mod subjects;
