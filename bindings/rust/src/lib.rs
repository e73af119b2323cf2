#![no_std]
#![cfg_attr(feature = "std", doc = include_str!("../README.md"))]
#![cfg_attr(not(feature = "std"), doc = "Hoare's monitor for threads, on a proved door. Front page: README.md.")]
extern crate alloc;
#[cfg(feature = "std")]
extern crate std;

pub mod book;
mod checks;
mod conditions;
mod door;
mod handle;
mod heap;
mod inside;
mod monitor;
mod notes;
mod parking;
mod places;
mod poison;
mod port;
mod recording;
mod refused;
#[cfg(feature = "std")]
mod std_port;
mod sync;

pub use checks::{Checks, Waiting};
pub use conditions::{Condition, NoConditions};
pub use inside::Inside;
pub use monitor::{Monitor, Place};
pub use places::{Borrowed, Places};
pub use poison::{LockResult, PoisonError};
pub use port::{DefaultPort, Port};
pub use refused::Refused;
#[cfg(feature = "std")]
pub use std_port::StdPort;
