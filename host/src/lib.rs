//! A host of the executive: reads a scenario, lends the memories, carries the frames, keeps the records, and makes of them what
//! purchasing, stores and crews read.

pub mod balance;
mod bytes;
pub mod carrier;
pub mod checkpoint;
pub mod command;
pub mod digest;
pub mod directory;
pub mod event_table;
pub mod events;
pub mod figures;
pub mod frame;
pub mod generator;
pub mod history;
pub mod kept;
pub mod lamps;
pub mod page;
mod picture;
pub mod places;
pub mod progress;
pub mod record;
pub mod record_files;
pub mod refusal;
pub mod report;
pub mod results;
pub mod scenario;
pub mod view;
