//! An implementation of document 01 with requests K1 to K4 of document 02, sharing nothing with the proved crates but the documents.
//!
//! It is written to be read beside the document: orders are searched, not tabulated, a voice is read into a tree
//! before it is answered, and the growth check evaluates the array once per situation. What it replies to a call is
//! what the proved programs are held to.

pub mod answers;
pub mod batches;
pub mod calls;
pub mod compile;
pub mod growth;
pub mod listed;
pub mod listed_back;
pub mod listed_defaults;
pub mod listed_weeks;
pub mod nodes;
pub mod notices;
pub mod random;
pub mod refusals;
pub mod situations;
pub mod tablecheck;
pub mod tables;
pub mod untable;
pub mod valid;
pub mod voices;
pub mod weekcount;
pub mod weeks;
