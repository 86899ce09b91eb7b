//! Lookups that are made by a program of bytes, written as tables: `cargo fuzz run lookups`.
#![no_main]

use libfuzzer_sys::fuzz_target;

#[allow(dead_code)]
#[path = "../../tests/fuzzed/bodies.rs"]
mod bodies;

fuzz_target!(|data: &[u8]| {
    bodies::lookups(data);
});
