//! The pictures of docs/ARCHITECTURE.md: the crates, drawn from crates.txt, and both ends' phases, drawn from what the
//! reading does.

pub mod crates;
pub mod device;
pub mod gateway;
mod layers;
mod machine;
mod plan;
#[path = "../../../tools/svg.rs"]
mod svg;
