//! Compares the verified library with the reference program: the same requests to both, and every
//! byte of both answers. The tests are in `tests/`; this crate has what they share.
//!
//! ```text
//! cargo test --release -p conformance -- --nocapture
//! ```
//!
//! | variable | default |
//! |---|---|
//! | `TEQHARIS_LIBRARY`: the folder of `libhost.a` | `target/staticlib` |
//! | `TEQHARIS_MIXCHECK`: the checking program | `target/bin/mixcheck` |
//! | `TEQHARIS_SEED`: the seed of the random requests | from the clock |
//! | `TEQHARIS_REQUESTS`: how many random requests | 200000 |
//! | `TEQHARIS_ONLY`: the number of the one request to repeat | all |

pub mod blocks;
pub mod compare;
pub mod conditions;
pub mod counts;
pub mod damage;
pub mod families;
pub mod fixed;
pub mod fresh_cells;
pub mod known;
pub mod library;
pub mod maker;
pub mod node_uses;
pub mod parts;
pub mod random;
pub mod request;
pub mod rewriting;
pub mod scratch_cells;
pub mod settings;
pub mod spelling;
pub mod stations;
pub mod tree;
pub mod typings;
pub mod wide;
