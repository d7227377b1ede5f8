//! The five original files, as copies of those in `docs/src` (a test holds them
//! to these), beside stand-ins for the modules of the original crate that they
//! lean on.

#![allow(dead_code, clippy::all)]

// The originals stay as published: `cargo fmt` passes over them.
#[rustfmt::skip]
pub mod feature_group;
#[rustfmt::skip]
pub mod instance;
#[rustfmt::skip]
pub mod item_tree;
#[rustfmt::skip]
pub mod name;
#[rustfmt::skip]
pub mod resolver;

// The stand-ins.
pub mod properties;
pub mod property_value;
pub mod standard_properties;
