//! Document 01 with its changes, implemented again from the documents alone: read a sheet, run a passage
//! into a lent buffer, print the answer; convert a stored sheet; find the first clear run in rows. The proved
//! planner is compared with it, byte for byte. It also explains a refusal.

pub mod answer;
pub mod clearance;
pub mod compare;
pub mod conversion;
pub mod cost;
pub mod explain;
pub mod explore;
pub mod generate;
pub mod library;
pub mod like_terms;
pub mod passage;
pub mod random;
pub mod rounding;
pub mod rows;
pub mod sheet;
pub mod step;
pub mod timing;
