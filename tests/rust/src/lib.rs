//! Tests of the static library from outside, by way of the bindings: an independent implementation of document 01 in plain Rust, a generator of calls, the
//! benchmark's baselines, its distances and its chart.
pub mod baseline;
pub mod chart;
pub mod distance;
pub mod functions;
pub mod generate;
pub mod reference;
