//! What a host of a member's node does between its network and its application.
//!
//! A node does no input or output of its own: a host carries its packets, plays its application, tells it the time and keeps its disk
//! (docs/HOSTING.md has what it has to keep true). Of that, this crate has all but the sockets, outside the proved core: nothing here
//! is proved, and nothing of the core rests on it. Read the modules in this order:
//!
//! | | |
//! |---|---|
//! | [`wire`], [`plain`] | what comes to a node and what it answers, as bytes |
//! | [`committee`] | the members' keys |
//! | [`envelope`], [`signatures`] | the signatures beside plain packets, and their store |
//! | [`member`] | the node: a child process, or the library in this process |
//! | [`inbox`], [`early`], [`recorded`], [`pace`], [`growth`], [`engine`] | the loop |
//! | [`chain`], [`blocks`], [`snapshots`] | the application's side |
//! | [`frame`], [`network`], [`allowance`] | what goes between hosts |
//! | [`reports`], [`judge`] | who lied |
//! | [`metrics`] | what is counted and told |

pub mod allowance;
pub mod blocks;
pub mod chain;
pub mod committee;
pub mod early;
pub mod engine;
pub mod envelope;
mod files;
pub mod frame;
pub mod growth;
pub mod inbox;
pub mod judge;
pub mod member;
pub mod metrics;
pub mod network;
pub mod pace;
pub mod plain;
pub mod recorded;
pub mod reports;
pub mod signatures;
pub mod snapshots;
pub mod wire;
