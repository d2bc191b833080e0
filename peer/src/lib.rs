//! The rules of document 01 and requests (a) to (g) of document 02 written again from the papers, for comparison.

pub mod arcs;
pub mod balance;
pub mod carrier;
pub mod examples;
pub mod forecast;
pub mod frame;
pub mod gateway;
pub mod generator;
pub mod memory;
pub mod model;
pub mod queue;
pub mod record;
pub mod refusal;
pub mod round;
pub mod routing;
pub mod run;
pub mod samples;
pub mod stream;
pub mod trials;
pub mod under_way;
pub mod view;
