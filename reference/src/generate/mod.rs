//! Random trials from a seed, for each service in a file of its name: sheets for the answers, stored sheets for the
//! conversion, rows and queries for the clearance. Beside them is what sheets are made of: calm ones, ones steered to
//! the edge of a question, and damaged ones. Half of the steps go back.

mod answer;
mod calm;
pub mod clearance;
pub mod conversion;
mod damage;
mod edges;
mod like_terms;
mod steering;

pub use answer::{Trial, Trials};
pub use calm::{anywhere, calm, calm_of, direction};
pub use damage::{damage, lengthen};
pub use edges::{at_the_limit_from_the_start, at_the_ratio, of_long_numbers};
pub use like_terms::of_like_terms;
pub use steering::{longest_step, longest_step_that, scale, written};
