//! A replicated key-value store: an application that a committee of members orders the requests of.
//!
//! Read the modules in this order:
//!
//! | | |
//! |---|---|
//! | [`command`], [`batch`] | what clients ask for, and how it is spelled in a block |
//! | [`machine`], [`snapshot`] | the state that the blocks lead to, the same at every member |
//! | `pool`, [`store`] | a member's store: requests that wait, answers, the calls of its host |
//! | [`http`] | what clients say over HTTP |

pub mod batch;
pub mod command;
pub mod http;
pub mod machine;
mod pool;
mod reader;
mod service;
pub mod snapshot;
pub mod store;

pub use reader::Malformed;
pub use service::service;
