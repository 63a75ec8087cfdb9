//! What the tests share.
pub mod counts;
pub mod reading;
pub mod responses;
pub mod shares;
pub mod simple;
pub mod written;
