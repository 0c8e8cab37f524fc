//! A settlement engine for energy accounts with rented deposit boxes.
//!
//! [`run::settle`] takes the bytes of a stream of slips and answers the lines
//! of the run. The other modules are its parts, from the calendar up to the
//! account; [`generate`] makes streams to try it with.

#![forbid(unsafe_code)]

pub mod account;
pub mod calendar;
pub mod generate;
pub mod month;
pub mod refusal;
pub mod run;
pub mod slip;
pub mod storage;
pub mod tariff;
