//! Plain Rust beside the calls that `crates/measure` makes, so that the instructions of one can be compared: it makes the
//! same calls and prints the same lines. Nothing is proved here. `bench/instructions` builds it, and runs both.
//!
//!   calls arena CAPACITY                rounds of calls on a full arena
//!   calls queue COUNT                     rounds of calls on a queue
//!   calls requests LINES DEPTH|random     requests to what a daemon serves
//!   calls messages LINES                  messages read, answered and written
//!   calls listing FILES OTHERS [changed|gone]  a directory listed
//!   calls checkout LINES                  calls on a manifest's tree
//!   calls map ENTRIES [random]            calls on the numbers that a daemon gave
//!   calls image ENTRIES 0                 an image read, restored, made again and written
//!   calls journal RECORDS WORKERS ROUNDS  whether a round is settled
//!   calls frames FORM ROUNDS                  frames written
//!   calls wire FORM ROUNDS                requests read
mod arena;
mod checkout;
mod frames;
mod hashing;
mod image;
mod journal;
mod listing;
mod loaded;
mod map;
mod messages;
mod queue;
mod random;
mod request;
mod requests;
mod wire;

fn main() {
    let words: Vec<String> = std::env::args().skip(1).collect();
    let told = match words[0].as_str() {
        "arena" => arena::measure(&words[1..]),
        "queue" => queue::measure(&words[1..]),
        "requests" => requests::measure(&words[1..]),
        "messages" => messages::measure(&words[1..]),
        "listing" => listing::measure(&words[1..]),
        "checkout" => checkout::measure(&words[1..]),
        "map" => map::measure(&words[1..]),
        "image" => image::measure(&words[1..]),
        "journal" => journal::measure(&words[1..]),
        "frames" => frames::measure(&words[1..]),
        "wire" => wire::measure(&words[1..]),
        subject => panic!("{subject} is no subject"),
    };
    println!("{}: {told}", words.join(" "));
}
