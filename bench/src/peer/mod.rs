//! An independent implementation of document 01, and of document 02's items 1, 2, 4, 5, 6 and 7, in plain Rust. It shares no code with
//! the library, and is as fast as plain Rust makes it, so that a ratio of times says something. `calls` alone is not made to be fast.
pub mod bounds;
pub mod burst;
pub mod calls;
pub mod machine;
pub mod read;
pub mod report;
pub mod run;
pub mod why;
pub mod write;
