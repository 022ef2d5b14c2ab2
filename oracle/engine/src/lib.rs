//! The proved engine, linked from its static library. `calls` has the header's functions over Rust's slices,
//! with the signatures of `plain::words`; the driver holds the two to each other.

#![allow(clippy::too_many_arguments)]

include!(concat!(env!("OUT_DIR"), "/bindings.rs"));
