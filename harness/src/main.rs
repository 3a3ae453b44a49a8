//! The corners, then rounds of random inputs. `--seed N` and `--rounds N` choose them; without a seed it is taken from the clock.
//! A round with number r uses the seed N + r, so that `--seed (N + r) --rounds 1` replays it alone. `--program PATH` runs that search program too:
//! on the examples, and on an input of each of the first rounds. The last line is `N compared, D differ`, N being inputs.

use harness::compare::search::Rooms;
use harness::compare::{self, Tally};
use harness::program::Program;
use harness::reference::edit::Edit;
use harness::reference::shelf::walk;
use harness::reference::Layout;
use harness::rng::Rng;
use harness::{corners, generate};
use std::time::{SystemTime, UNIX_EPOCH};

/// In how many rounds the program is run: a process for each input takes longer than a call.
const PROGRAM_ROUNDS: u64 = 1_000;

fn main() {
    let clock = SystemTime::now().duration_since(UNIX_EPOCH).map_or(1, |d| d.as_nanos() as u64 % 1_000_000_007);
    let seed = option("--seed").unwrap_or(clock);
    let rounds = option("--rounds").unwrap_or(4_000);
    let mut tally = Tally::default();
    corners::all(&mut tally);
    let program = word("--program").map(Program::at);
    if let Some(program) = &program {
        program.corners(&mut tally);
    }
    println!("seed {seed}, {rounds} rounds");
    for round in 0..rounds {
        let seed = seed.wrapping_add(round);
        tally.case = format!("replay with --seed {seed} --rounds 1");
        one_round(&mut tally, &mut Rng::new(seed));
        if let Some(program) = program.as_ref().filter(|_| round < PROGRAM_ROUNDS) {
            let case = tally.case.clone();
            program.compare(&mut tally, &case, &program_input(&mut Rng::new(!seed)));
        }
    }
    tally.print_numbers();
    println!("{} compared, {} differ", tally.compared, tally.differ);
    std::process::exit(i32::from(tally.differ > 0));
}

/// The word behind an option of the command line.
fn word(name: &str) -> Option<String> {
    std::env::args().skip_while(|w| w != name).nth(1)
}

/// The number behind an option of the command line.
fn option(name: &str) -> Option<u64> {
    word(name).map(|w| w.parse().unwrap_or_else(|_| panic!("{name} takes a number")))
}

/// Some of a shelf's lists and one that it has not, into runs that have room or have not.
fn read_lists(t: &mut Tally, rng: &mut Rng, shelf: &[u8]) {
    let lists = walk(shelf).unwrap_or_default();
    for list in lists.iter().take(5) {
        let held: usize = list.blocks.iter().map(|b| b.summary.count as usize).sum();
        let docid_room = rng.pick(&[held, held, held + 1, held - 1, 6_400]);
        let score_room = rng.pick(&[held, held, held + 3, 0, 6_400]);
        compare::read_list(t, shelf, list.term, docid_room, score_room);
    }
    compare::read_list(t, shelf, rng.pick(&[0, 3, u32::MAX]), 5, 5);
}

/// The terms of a shelf's lists, none where its fields are wrong.
fn terms_of(shelf: &[u8]) -> Vec<u32> {
    walk(shelf).map_or(Vec::new(), |lists| lists.iter().map(|l| l.term).collect())
}

/// A query over a shelf's terms, right or now and then wrong.
fn a_query(rng: &mut Rng, terms: &[u32]) -> Vec<u8> {
    if rng.once_in(6) { generate::wrong_query(rng, terms) } else { generate::query(rng, terms) }
}

/// Both rankers on one query, into runs enough or too short.
fn searches(t: &mut Tally, rng: &mut Rng, shelf: &[u8]) {
    let query = a_query(rng, &terms_of(shelf));
    let (docid_room, score_room) = (rng.pick(&[100, 100, 101, 10, 1]), rng.pick(&[100, 100, 120, 2]));
    compare::rank_all(t, &query, shelf, docid_room, score_room);
    let told = compare::search::search(t, &query, shelf, Rooms::WIDE);
    let (k, intervals) = (query.get(3).map_or(1, |&k| k.into()), told.counts[0].max(1) as usize);
    compare::search::search(t, &query, shelf, tight_rooms(rng, k, intervals));
}

/// Runs as long as a search wants them, or one of them longer or one short.
fn tight_rooms(rng: &mut Rng, k: usize, intervals: usize) -> Rooms {
    let mut rooms = Rooms::of(k, intervals);
    let changed = rng.pick(&[0, 1]) * rng.within(1, 5);
    let to = |n: usize, rng: &mut Rng| if rng.once_in(2) { n.saturating_sub(1) } else { n + rng.within(1, 40) };
    match changed {
        1 => rooms.docids = to(k, rng),
        2 => rooms.scores = to(k, rng),
        3 => rooms.firsts = to(intervals, rng),
        4 => rooms.ceilings = to(intervals, rng),
        5 => rooms.marks = to(intervals, rng),
        _ => {}
    }
    rooms
}

/// An input for the program: a query and a shelf, sound or damaged, the whole now and then damaged once more, or just too long.
fn program_input(rng: &mut Rng) -> Vec<u8> {
    let (size, spread) = (generate::size(rng), generate::spread(rng));
    let mut shelf = generate::shelf(rng, size, spread);
    let query = a_query(rng, &terms_of(&shelf));
    match rng.within(1, 6) {
        1 => shelf = generate::damage(rng, &shelf),
        2 | 3 => shelf = generate::damage_body(rng, &shelf),
        _ => {}
    }
    let mut input = [query, shelf].concat();
    if rng.once_in(12) {
        input = generate::damage(rng, &input);
    }
    if rng.once_in(30) {
        input.resize(rng.pick(&[65_535, 65_536, 65_537]), 0x20);
    }
    input
}

/// An edit of a term and a sheet that a shelf may hold, now and then out of range.
fn an_edit(rng: &mut Rng, terms: &[u32]) -> Edit {
    let term = if terms.is_empty() || rng.once_in(4) { rng.draw() as u32 % 50 } else { rng.pick(terms) };
    let docid = if rng.once_in(20) { rng.pick(&[0, 1, 16_777_215, 16_777_216]) } else { 1 + rng.draw() as u32 % 300 };
    let score = if rng.once_in(20) { rng.pick(&[0, 65_535]) } else { 1 + rng.draw() as u16 % 900 };
    match rng.draw() % 4 {
        0 => Edit::Clear(term, docid),
        1 => Edit::Withdraw(docid),
        _ => Edit::Set(term, docid, score),
    }
}

/// A term that a shelf has, or now and then one that it has not.
fn a_term(rng: &mut Rng, terms: &[u32]) -> u32 {
    if terms.is_empty() || rng.once_in(8) { rng.draw() as u32 % 50 } else { rng.pick(terms) }
}

/// A list to the other layout and back, into room enough or too short: it is as it was, and a search of either shelf tells the same.
fn conversions(t: &mut Tally, rng: &mut Rng, shelf: &[u8]) {
    let terms = terms_of(shelf);
    let term = a_term(rng, &terms);
    let room = rng.pick(&[shelf.len(), shelf.len(), shelf.len() + 40, shelf.len().saturating_sub(1), 0]);
    let ((number, _), turned) = compare::convert(t, shelf, term, room);
    if number != 0 {
        return;
    }
    let (number, _) = compare::check(t, &turned);
    t.note("a converted shelf is sound", (number != 0).then(|| format!("refused as {number}")));
    read_lists(t, rng, &turned);
    let query = generate::query(rng, &terms);
    let (before, after) = (compare::search::search(t, &query, shelf, Rooms::WIDE), compare::search::search(t, &query, &turned, Rooms::WIDE));
    t.note("a search of both layouts", (before != after).then(|| format!("{before:?}, then {after:?}")));
    let (_, back) = compare::convert(t, &turned, term, shelf.len());
    t.note("a list converted twice", (back != shelf).then(|| format!("term {term} is not as it was")));
}

/// A history from a shelf, each accepted result feeding the next, conversions among the edits; after each the checker's word.
fn edits(t: &mut Tally, rng: &mut Rng, mut shelf: Vec<u8>, turns: usize) {
    for _ in 0..turns {
        let terms = terms_of(&shelf);
        let asked = an_edit(rng, &terms);
        // an edit adds a list of one posting at most, 25 bytes
        let room = rng.pick(&[shelf.len() / 2, shelf.len(), shelf.len() + 25, shelf.len() + 25, shelf.len() + 25, shelf.len() + 1_000]);
        let ((number, _), edited) =
            if rng.once_in(5) { compare::convert(t, &shelf, a_term(rng, &terms), room) } else { compare::edit(t, asked, &shelf, room) };
        if number == 0 {
            let (number, _) = compare::check(t, &edited);
            t.note("an edited shelf is sound", (number != 0).then(|| format!("refused as {number}")));
            shelf = edited;
        }
    }
}

/// A shelf, sound and damaged, a query, right and wrong, and a run to write.
fn one_round(t: &mut Tally, rng: &mut Rng) {
    let size = generate::size(rng);
    let spread = generate::spread(rng);
    let shelf = generate::shelf(rng, size, spread);
    let (number, _) = compare::check(t, &shelf);
    t.note("a generated shelf is sound", (number != 0).then(|| format!("refused as {number}")));
    let mut damaged = shelf.clone();
    for _ in 0..4 {
        damaged = generate::damage(rng, &damaged);
        compare::check(t, &damaged);
        read_lists(t, rng, &damaged);
        searches(t, rng, &damaged);
        edits(t, rng, damaged.clone(), 1);
        conversions(t, rng, &damaged);
    }
    compare::check(t, &generate::noise(rng));
    read_lists(t, rng, &shelf);
    let mut wrong_bodies = shelf.clone();
    for _ in 0..3 {
        searches(t, rng, &shelf);
        conversions(t, rng, &shelf);
        wrong_bodies = generate::damage_body(rng, &wrong_bodies);
        searches(t, rng, &wrong_bodies);
        conversions(t, rng, &wrong_bodies);
    }

    let terms = terms_of(&shelf);
    compare::check_query(t, &generate::query(rng, &terms));
    compare::check_query(t, &generate::wrong_query(rng, &terms));

    edits(t, rng, shelf, 4);
    edits(t, rng, Vec::new(), 12);

    let (docids, scores) = generate::runs(rng);
    let room = rng.pick(&[0, 25, 400, 30_000, 60_000]);
    let term = rng.draw() as u32;
    for layout in Layout::BOTH {
        compare::write_list(t, layout, term, &docids, &scores, room);
    }
}
