//! A plain Rust program that runs scripts, and prints the same lines as `edend world`. Nothing is proved here, and no
//! memory is asked for beforehand.
//!
//!   plain_world world [--limit N] SCRIPT
#[path = "../calls/hashing.rs"]
mod hashing;
#[path = "../calls/loaded.rs"]
mod loaded;

mod checkout;
mod daemon;
mod image;
mod kernel;
mod print;
mod request;
mod script;
mod served;
mod world;

use script::Script;
use std::io::Write;
use world::World;

const DEFAULT_LIMIT: usize = 1024;

fn main() {
    let words: Vec<String> = std::env::args().skip(1).collect();
    let words: Vec<&str> = words.iter().map(String::as_str).collect();
    let (limit, path) = match words[..] {
        ["world", path] => (DEFAULT_LIMIT, path),
        ["world", "--limit", limit, path] => (limit.parse().expect("the limit is a number"), path),
        _ => panic!("plain_world world [--limit N] SCRIPT"),
    };
    let text = std::fs::read(path).expect("the script can be read");
    let mut printed = Vec::new();
    let status = match Script::read(&text) {
        Ok(script) => {
            let mut world = World::new(&script.manifest, limit);
            for event in &script.events {
                let outcome = world.step(event);
                print::outcome(&mut printed, &world, outcome);
            }
            0
        }
        Err(fault) => {
            writeln!(printed, "fault: {fault}").expect("a list takes all that is written");
            1
        }
    };
    std::io::stdout().write_all(&printed).expect("what happened is printed");
    std::process::exit(status);
}
