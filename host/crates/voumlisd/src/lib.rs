//! One member of a committee that can be deployed: its keys, its links to the others, its record on a disk, its application.
//!
//! The program `voumlisd` runs a member whose application is one in another process, over HTTP, or
//! orders nothing but empty blocks; the program of an application calls
//! [`command_line`] with its own [`Service`], and has the same commands. What a host has to keep true is in docs/HOSTING.md, with the
//! functions here that do; nothing of it is proved.

mod blocked;
mod commands;
pub mod http;
mod links;
mod member;
mod outgoing;
pub mod remote;
pub mod settings;
pub mod tls;

pub use commands::command_line;
pub use http::Routes;
pub use member::{Service, Wrap, run};
pub use settings::Settings;

mod counting;
pub use counting::Counting;
