//! A trial of a committee of real processes: clients on its store while links and members fail, and checks
//! of all that was seen.

pub mod acknowledged;
pub mod chains;
pub mod client;
pub mod committee;
pub mod history;
pub mod linearizable;
pub mod nemesis;
pub mod plant;
pub mod proxy;
pub mod random;
pub mod run;
pub mod seen;
#[cfg(test)]
mod simulated;
pub mod votes;
pub mod workload;
