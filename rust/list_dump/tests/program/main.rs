//! Runs target/bin/list_dump, or the program that LIST_DUMP names, and compares what it writes with what the rules say.

mod dumps;
mod lines;
mod run;
mod streams;
