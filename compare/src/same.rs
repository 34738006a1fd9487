//! The Rattle source without its contracts, compiled as Rust: the same algorithms, for the benchmark.
#![allow(unused_imports, unused_variables, dead_code, clippy::all)]

include!(concat!(env!("OUT_DIR"), "/same.rs"));
