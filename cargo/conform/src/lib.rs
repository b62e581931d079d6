//! What the tests of the three crates share: generated functions, their JSON, and corrupted outputs.

pub mod forge;
pub mod functions;
pub mod json;
pub mod places;
