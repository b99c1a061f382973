//! What the programs of this crate share. `bench` times the verified library against the reference
//! program; `instructions` counts the instructions of the library's parts by themselves; `search`
//! looks for the script with the slowest check.
//!
//! ```text
//! cargo run --offline --release -p bench [-- --all]
//! cargo run --offline --release -p bench --bin instructions
//! cargo run --offline --release -p bench --bin search [-- SECONDS [SEED]]
//! ```

pub mod alone;
pub mod candidates;
pub mod families;
pub mod machine;
pub mod members;
pub mod mutation;
pub mod nests;
pub mod programs;
pub mod scripts;
pub mod sets;
pub mod short;
pub mod table;
pub mod texts;
pub mod timing;
pub mod worker;
pub mod worst;
