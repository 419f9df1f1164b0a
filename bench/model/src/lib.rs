//! A plain model of the link: two ends, a line each way, scripts and listings.
//!
//! It is an independent reference for tests and measurements. It follows document 01 sentence by sentence,
//! in its words, with growable queues and without cleverness. Every answer number is that document's.

pub mod arrival;
pub mod end;
pub mod frame;
pub mod host;
pub mod listing;
pub mod pair;
pub mod random;
pub mod script;
pub mod setup;
pub mod shape;
pub mod step;
pub mod units;
