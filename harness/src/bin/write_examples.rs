//! Writes the inputs of the folder `examples`, and what the reference prints for each, into the folder that is named; prints the README's lines.

use harness::examples::all;
use harness::reference::program::print;
use std::fs::write;

fn main() -> std::io::Result<()> {
    let folder = std::env::args().nth(1).expect("the folder to write");
    for e in all() {
        write(format!("{folder}/{}.in", e.name), &e.input)?;
        write(format!("{folder}/{}.out", e.name), print(&e.input))?;
        println!("| {} | {} |", e.name, e.what);
    }
    Ok(())
}
