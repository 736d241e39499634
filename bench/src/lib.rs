//! Speed of the proved planner, as a ratio to the same rules in release Rust.
//!
//! | Module        | What it has                                              |
//! |---------------|----------------------------------------------------------|
//! | [`task`]      | the arguments of a call, and the lent tables             |
//! | [`yardstick`] | document 01's rules in Rust, for speed                   |
//! | `proved`      | proved planners behind their C functions (features)      |
//! | [`side`]      | what the benchmark asks of either                        |
//! | [`families`]  | the inputs                                               |
//! | [`measure`]   | medians of interleaved rounds                            |
//! | [`compare`]   | equal results on every input                             |
//! | [`report`]    | the lines that are printed                               |

pub mod compare;
pub mod families;
pub mod measure;
#[cfg(any(feature = "proved-route", feature = "before"))]
pub mod proved;
pub mod report;
pub mod side;
pub mod task;
pub mod yardstick;
