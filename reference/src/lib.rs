//! Second implementation of the density unit, written from documents 01 and 02
//! alone.
//!
//! [`brute`] counts unit squares as the definitions say and serves as the
//! yardstick on small layouts; [`fast`] takes every legal job. Both share the
//! reader ([`job`]), the two extremes ([`sense`]), the form of the results
//! ([`outcome`]) and the printing ([`answer`]). [`generate`] makes the jobs on
//! which implementations are compared.

pub mod answer;
mod barred;
pub mod brute;
mod cells;
pub mod cover;
pub mod fast;
pub mod generate;
pub mod job;
pub mod outcome;
pub mod sense;
