//! The driver of the oracle: gate lists in, the original's answers out.
//! docs/TESTING.md has the format of gate lists, crates/replay_*/README.md those of stored lists.

pub mod answer;
pub mod bits;
pub mod check;
pub mod classify;
pub mod compiled;
pub mod complex;
pub mod exact;
pub mod families;
pub mod fused;
pub mod gate_text;
#[path = "../../../host/src/layout.rs"]
pub mod layout;
pub mod leaves;
pub mod list;
pub mod plain;
pub mod printed;
pub mod query;
pub mod reader;
pub mod records;
pub mod register;
pub mod rng;
pub mod run;
pub mod runs;
pub mod selftest;
pub mod state_lists;
pub mod state_text;
pub mod stops;
pub mod stored_tapes;
pub mod strings;
pub mod table;
pub mod tape;
pub mod traced;
pub mod vector;
