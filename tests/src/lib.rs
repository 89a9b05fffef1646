//! The plain search written apart from document 01, the nets it is tried on, and the comparison of an implementation with it.

pub mod asked;
pub mod block;
pub mod by_front;
#[path = "../../hosts/c_calls.rs"]
pub mod c_calls;
pub mod compare;
pub mod cut;
pub mod desk;
pub mod host;
pub mod loads;
pub mod met;
pub mod nets;
pub mod plain;
pub mod rows;
pub mod runs;
pub mod stored;
pub mod wrong;
