//! Writes a list, rescores a sheet, turns the list to strips, searches, and shows a refusal. In `bindings/rust`: `cargo run --example embed`.
use tagmurlen::{check, convert, search, set, write_list, Book, Layout, Query, Refusal, MAX_INTERVALS};

fn main() -> Result<(), Refusal> {
    let sheets: Vec<u32> = (1..=200).collect(); // in two blocks, 1 to 100 and 101 to 200
    let (mut first, mut second, mut shelf) = ([0; 1024], [0; 1024], [0; 1024]);
    let written = write_list(Layout::Pairs, 7, &sheets, &[5; 200], &mut first)?;
    println!("written: {written} bytes");

    let rescored = set(&first[..written], 7, 9, 65_535, &mut second)?; // sheet 9 is raised to the top score
    println!("rescored: {rescored} bytes");

    let length = convert(&second[..rescored], 7, &mut shelf)?; // in each block all scores stand together now
    println!("in strips: {length} bytes");

    let query = Query::new(2).term(7, 10).build()?; // the best 2 for term 7, weight 10
    let (mut docids, mut scores) = ([0; 2], [0; 2]);
    let (mut firsts, mut ceilings, mut marks) = ([0; MAX_INTERVALS], [0; MAX_INTERVALS], [0; MAX_INTERVALS]);
    let mut book = Book::new(&mut firsts, &mut ceilings, &mut marks);
    let found = search(&query, &shelf[..length], &mut docids, &mut scores, &mut book)?;
    for i in 0..found.hits {
        println!("sheet {} scores {}", docids[i], scores[i]);
    }
    println!("opened {} of {} blocks", found.opened, found.blocks);

    shelf[17] = 0; // the first summary's greatest score is made smaller than that of sheet 9, as in the incident
    println!("kept an old greatest score: {}", check(&shelf[..length]).unwrap_err());
    Ok(())
}
