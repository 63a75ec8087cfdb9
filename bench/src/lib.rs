//! An independent implementation of document 01 and of document 02's items 1, 2, 4, 5, 6, 7 and 8 (`peer`), and the inputs on which it
//! and the proved library (the package `razhikum`) are compared and timed.
pub mod inputs;
pub mod peer;
