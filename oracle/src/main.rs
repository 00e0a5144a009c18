//! The oracle: the Rust's own functions over our stand-in store. Case lines come on
//! standard input, one answer line goes out for each; `oracle file NAME [ID..]` makes a
//! whole run on a GFA file, with the ids named as protected.

// The taken text stands below as it is; what it leaves unused is not ours to change.
#![allow(unused)]

mod answers;
mod driver;
mod events;
mod gfa;
mod handle;
mod lines;
mod plain;
mod store;
mod texts;

use events::{AffixSubgraph, CollapseEventTracker};
use gfa::{GFAParser, OptFields, GFA};
use handle::*;
use plain::*;
use std::collections::{HashSet, VecDeque};
use std::error::Error;
use std::io;
use std::io::prelude::*;
use std::str;
use store::{DeletedSubGraph, HashGraph};

// The Rust, unchanged: made by oracle/extract, never committed.
include!("../../target/oracle/taken.rs");

fn answer(line: &str) -> String {
    let ask = std::panic::AssertUnwindSafe(|| answers::ask(line));
    match std::panic::catch_unwind(ask) {
        Ok(Ok(text)) => text,
        Ok(Err(word)) => word.to_string(),
        Err(_) => "panic".to_string(),
    }
}

fn main() -> io::Result<()> {
    let words: Vec<String> = std::env::args().skip(1).collect();
    if words.first().map(String::as_str) == Some("file") {
        return texts::run_file(&words[1..]);
    }
    // With ORACLE_SAY set the Rust's own words about a panic go to standard error.
    if std::env::var_os("ORACLE_SAY").is_none() {
        std::panic::set_hook(Box::new(|_| {}));
    }
    let mut out = io::BufWriter::new(io::stdout().lock());
    for line in io::stdin().lock().lines() {
        writeln!(out, "{}", answer(&line?))?;
    }
    out.flush()
}
