//! The unchanged Rust's answers to case lines. ../../README.md has their form.
pub mod answers;
pub mod demand3;
pub mod selftest;
pub mod tables;
pub mod text;
mod trees;
