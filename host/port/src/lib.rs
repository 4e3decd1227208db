//! The proved code itself, called as any Rust program would call it, and held against the reference.
pub mod bench;
pub mod both;
pub mod damaged;
pub mod fenced;
pub mod generated;
pub mod given;
pub mod large;
pub mod long;
pub mod pages;
pub mod player;
pub mod progress;
pub mod replay;
