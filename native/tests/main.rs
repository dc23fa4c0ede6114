//! The tests of the crate. The first line of each file says what it is about.

mod asked;
mod conversions;
mod editing;
mod files;
mod forms;
mod long_texts;
mod modules;
mod names;
mod predeclared;
#[cfg(feature = "std")]
mod programs;
mod random;
mod reader;
mod refusals;
#[cfg(feature = "std")]
mod run;
#[cfg(feature = "std")]
mod serve;
mod source;
mod spellings;
mod standard;
mod tables;
mod templates;
mod types;
mod worked;
