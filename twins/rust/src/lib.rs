//! A second, independent reading of SBP 1.1 (document 003) under the rules of
//! document 01 and of requests P1 to P3 and P5 to P7. Written to be obvious, so
//! that another implementation can be compared with it; `fast` is the one
//! module written for speed.

#![forbid(unsafe_code)]

pub mod crc;
pub mod epochs;
pub mod fast;
pub mod frames;
pub mod gen;
pub mod index;
pub mod listing;
pub mod messages;
pub mod numbers;
