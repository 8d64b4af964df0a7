//! The tool for laboratories: designs in words, checked, explained and drawn, and asked over a database. It decides nothing itself: acceptance, knots and
//! verdicts come from the proved library (`library.rs`), answers over a database too (package `session`); the tool translates names, and shows.

pub mod ask;
pub mod check;
pub mod cli;
pub mod completion;
pub mod cost;
pub mod database;
pub mod diff;
pub mod draw;
pub mod explain;
pub mod facts;
pub mod file;
pub mod init;
pub mod json;
pub mod library;
pub mod loads;
pub mod output;
pub mod page;
pub mod progress;
pub mod reply;
pub mod reply_json;
pub mod report;
pub mod run;
pub mod shell;
pub mod status;
pub mod try_load;
pub mod unseen;
