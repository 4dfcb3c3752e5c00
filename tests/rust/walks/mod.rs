//! Captures read, mended and written by the library, and compared with the reading.

pub mod cases;
pub mod comparison;
pub mod coverage;
pub mod writes;
