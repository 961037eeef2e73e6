//! The checks of single rules: each compares a rule's own words with what the published code or its libraries do,
//! prints a line with counts, and says whether they agree.
pub mod heap;
pub mod limits;
pub mod schema;
pub mod sizes;
