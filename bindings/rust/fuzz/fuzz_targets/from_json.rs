//! Texts of lookups, and what is made of them: `cargo fuzz run from_json`.
#![no_main]

use libfuzzer_sys::fuzz_target;

#[allow(dead_code)]
#[path = "../../tests/fuzzed/bodies.rs"]
mod bodies;

fuzz_target!(|data: &[u8]| {
    bodies::from_json(data);
});
