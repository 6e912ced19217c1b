//! A keeper of pieces on drives in memory, written from the rules alone, to compare `rehearse` with.
//!
//! `gf`, `pieces`, `slots`, `keeper` and `script` are the keeper; `generate` makes scripts for it,
//! `promise` says what may be read at all, `compare` plays them twice, and `flaws` are mistakes that can be planted, to see
//! that a comparison finds them.

pub mod compare;
pub mod flaws;
pub mod generate;
pub mod gf;
pub mod keeper;
pub mod pieces;
pub mod promise;
pub mod script;
pub mod slots;
