//! A plain WLFC cache engine for the depot recorder, written from documents 01 and 02
//! and not from the proved engine, as its outside check and its speed baseline.

pub mod device;
mod digits;
mod distinct;
pub mod drive;
pub mod engine;
mod fits;
mod form;
mod found;
mod frame;
mod image_text;
mod ledger;
mod lines;
pub mod list;
pub mod merge;
mod operations;
mod order;
mod place;
mod recorder;
pub mod recover;
mod request;
pub mod rewrite;
pub mod sizes;
pub mod spare;
pub mod state;
mod steps;
pub mod survey;
pub mod workbench;

#[cfg(test)]
mod tests;
