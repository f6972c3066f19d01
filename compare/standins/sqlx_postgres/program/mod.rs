//! The program: `rust [--by-oid] [SCRIPT]`.
mod script;
pub mod server;

use std::future::Future;
use std::io::Read;
use std::task::{Context, Poll, Waker};

/// Runs a future to its end. Nothing here ever waits, so each poll makes progress.
pub fn block_on<F: Future>(future: F) -> F::Output {
    let mut future = std::pin::pin!(future);
    let mut context = Context::from_waker(Waker::noop());
    loop {
        if let Poll::Ready(out) = future.as_mut().poll(&mut context) {
            return out;
        }
    }
}

pub fn main() {
    let mut by_oid = false;
    let mut file = None;
    for word in std::env::args().skip(1) {
        match word.as_str() {
            "--by-oid" => by_oid = true,
            other if other.starts_with("--") => {
                eprintln!("usage: rust [--by-oid] [SCRIPT]");
                std::process::exit(2);
            }
            other => file = Some(other.to_owned()),
        }
    }
    let mut text = Vec::new();
    match file {
        Some(path) => text = std::fs::read(&path).unwrap_or_else(|e| panic!("{path}: {e}")),
        None => {
            std::io::stdin().read_to_end(&mut text).expect("standard input");
        }
    }
    std::process::exit(script::run(&text, by_oid));
}
