//! Port, original and naive on a bracket of PGM files, and what is made of the answers: the
//! lines of the command `hall`, the frames as they lie on each other, and pictures of how
//! much each shift of a window disagrees.

pub mod answers;
pub mod arguments;
pub mod asked;
pub mod bracket;
mod letters;
pub mod names;
pub mod out;
mod packed;
pub mod people;
mod picture;
pub mod plain;
mod png;
pub mod refused;
pub mod sentences;
pub mod sources;
pub mod stepped;
pub mod watch;
mod window;
