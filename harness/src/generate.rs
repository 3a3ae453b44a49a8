//! Inputs: shelves, valid and damaged; queries; runs of postings with each kind of fault.

use crate::reference::fields::number;
use crate::reference::list::put_blocks_as;
use crate::reference::query::put_query;
use crate::reference::{Layout, Posting, MAX_BLOCKS, MAX_DOCID, MAX_LISTS, MAX_SHELF, PER_BLOCK};
use crate::rng::Rng;

/// Gaps at the edges of the gap number's one, two, three and four bytes (the number is the gap less one), and small ones.
const GAPS: [u32; 14] = [1, 1, 2, 3, 7, 127, 128, 129, 130, 16_384, 16_385, 16_386, 2_097_152, 2_097_153];

/// How the scores of a list are spread.
#[derive(Clone, Copy, Debug)]
pub enum Spread {
    /// All alike.
    Flat,
    /// A few high, most low: the r-th highest is about 1/r of the first.
    Zipf,
    /// Any.
    Wild,
}

pub fn score(rng: &mut Rng, spread: Spread) -> u16 {
    match spread {
        Spread::Flat => 40,
        Spread::Zipf => (60_000 / rng.within(1, 3_000)) as u16,
        Spread::Wild => {
            let any = rng.within(1, 65_535) as u16;
            rng.pick(&[1, 2, 255, 256, 65_534, 65_535, any])
        }
    }
}

/// `n` postings whose docids rise by gaps of at most about `reach`, the first sometimes 1, the last sometimes 16,777,215.
pub fn postings(rng: &mut Rng, n: usize, reach: u32, spread: Spread) -> Vec<Posting> {
    let mut docid = if rng.once_in(3) { 0 } else { rng.within(0, 2_000) as u32 };
    let mut run = Vec::with_capacity(n);
    for left in (0..n as u32).rev() {
        let most = (MAX_DOCID - docid - left).min(reach);
        let gap = if rng.once_in(4) { rng.pick(&GAPS).min(most) } else { rng.within(1, most.min(40) as usize) as u32 };
        docid += gap;
        run.push((docid, score(rng, spread)));
    }
    if rng.once_in(4) {
        run.last_mut().expect("n is not 0").0 = MAX_DOCID;
    }
    run
}

/// Postings cut into blocks, in either layout: full ones as the writer makes them, or of any size.
pub fn list(rng: &mut Rng, term: u32, run: &[Posting]) -> Vec<u8> {
    let mut blocks: Vec<&[Posting]> = Vec::new();
    let mut rest = run;
    let full = rng.once_in(2) || run.len() > MAX_BLOCKS * PER_BLOCK / 4;
    while !rest.is_empty() {
        let spare = MAX_BLOCKS - blocks.len();
        let size = if full || spare * 2 < rest.len() { PER_BLOCK } else { rng.pick(&[1, 2, 3, 10, 50, 100]) };
        let (block, after) = rest.split_at(size.min(rest.len()));
        blocks.push(block);
        rest = after;
    }
    put_blocks_as(rng.pick(&Layout::BOTH), term, &blocks)
}

/// How large a shelf is wanted.
#[derive(Clone, Copy, Debug)]
pub struct Size {
    pub lists: usize,
    pub postings: usize,
}

/// A sound shelf. Its lists share the low docids, so that a query's lists meet.
pub fn shelf(rng: &mut Rng, size: Size, spread: Spread) -> Vec<u8> {
    let mut bytes = Vec::new();
    let mut term: u32 = rng.within(0, 3) as u32;
    for _ in 0..size.lists.min(MAX_LISTS) {
        let n = rng.within(1, size.postings);
        let reach = rng.pick(&[1, 5, 5, 130, 20_000, 3_000_000]);
        let run = postings(rng, n, reach, spread);
        let next = list(rng, term, &run);
        if bytes.len() + next.len() > MAX_SHELF {
            break;
        }
        bytes.extend(next);
        term += rng.pick(&[1, 1, 2, 70_000]);
    }
    bytes
}

/// A size that is mostly small, now and then large.
pub fn size(rng: &mut Rng) -> Size {
    match rng.within(1, 20) {
        1 => Size { lists: 3, postings: 6_400 },
        2 => Size { lists: 200, postings: 30 },
        3..=6 => Size { lists: 8, postings: 300 },
        _ => Size { lists: rng.within(0, 4), postings: rng.within(1, 12) },
    }
}

pub fn spread(rng: &mut Rng) -> Spread {
    rng.pick(&[Spread::Flat, Spread::Zipf, Spread::Wild])
}

/// Where the fields of some bytes begin, as far as they are whole.
pub fn field_starts(bytes: &[u8]) -> Vec<usize> {
    let mut starts = Vec::new();
    let mut at = 0;
    while at + 3 <= bytes.len() {
        starts.push(at);
        at += 3 + number(&bytes[at + 1..at + 3]) as usize;
    }
    starts
}

/// Where the bodies of some bytes begin, as far as their fields are whole.
fn body_starts(bytes: &[u8]) -> Vec<usize> {
    field_starts(bytes).into_iter().filter(|&at| matches!(bytes[at], 3 | 4)).collect()
}

/// One layout's tag to the other's.
fn flip(tag: &mut u8) {
    *tag ^= 3 ^ 4;
}

/// Bytes with one thing wrong, or now and then still right.
pub fn damage(rng: &mut Rng, bytes: &[u8]) -> Vec<u8> {
    let mut out = bytes.to_vec();
    let starts = field_starts(bytes);
    if starts.is_empty() {
        return vec![rng.draw() as u8; rng.within(1, 9)];
    }
    let at = rng.within(0, out.len() - 1);
    let field = rng.pick(&starts);
    let bodies = body_starts(bytes);
    match rng.within(1, 10) {
        1 => out[at] ^= 1 << rng.within(0, 7),
        2 => out[at] = rng.pick(&[0, 1, 127, 128, 255]),
        3 => out.truncate(at),
        4 => out.insert(at, rng.draw() as u8),
        5 => {
            out.remove(at);
        }
        // a length grown or shrunk
        6 => out[field + 2] = out[field + 2].wrapping_add(rng.pick(&[1, 255])),
        // the shelf again behind itself: a list repeated, terms that do not rise
        7 => out.extend_from_within(field..),
        // two fields swapped
        8 => out = swapped(&out, field, rng.pick(&starts)),
        // a body's tag made the other layout's
        9 if !bodies.is_empty() => flip(&mut out[rng.pick(&bodies)]),
        // a byte among the first of a field: its tag, its length, its numbers
        _ => {
            let near = (field + rng.within(0, 11)).min(out.len() - 1);
            out[near] = out[near].wrapping_add(rng.pick(&[1, 255]));
        }
    }
    out
}

/// A shelf whose fields are right, with one thing wrong in a body: one of its bytes, the summary's greatest score, or its whole list's tags.
pub fn damage_body(rng: &mut Rng, shelf: &[u8]) -> Vec<u8> {
    let mut out = shelf.to_vec();
    let summaries: Vec<usize> = field_starts(shelf).into_iter().filter(|&at| shelf[at] == 2).collect();
    let bodies = body_starts(shelf);
    if bodies.is_empty() {
        return out;
    }
    let body = rng.pick(&bodies);
    let length = number(&shelf[body + 1..body + 3]) as usize;
    match rng.within(1, 4) {
        1 => out[rng.pick(&summaries) + 10] ^= 1 + rng.within(0, 3) as u8,
        2 => flip_list(&mut out, body),
        3 if length > 0 => out[body + 2 + rng.within(1, length)] = rng.pick(&[0, 1, 128, 255]),
        _ if length > 0 => out[body + 2 + rng.within(1, length)] ^= 1 << rng.within(0, 7),
        _ => {}
    }
    out
}

/// The tags of all bodies of the list that has a body at `body`.
fn flip_list(out: &mut [u8], body: usize) {
    let starts = field_starts(out);
    let Some(first) = starts.iter().rposition(|&at| at <= body && out[at] == 1) else { return };
    let of_list = starts[first + 1..].iter().take_while(|&&at| out[at] != 1);
    let bodies: Vec<usize> = of_list.copied().filter(|&at| out[at] != 2).collect();
    bodies.into_iter().for_each(|at| flip(&mut out[at]));
}

fn swapped(bytes: &[u8], a: usize, b: usize) -> Vec<u8> {
    let (a, b) = (a.min(b), a.max(b));
    let end = |at: usize| (at + 3 + number(&bytes[at + 1..at + 3]) as usize).min(bytes.len());
    if end(a) > b {
        return bytes.to_vec();
    }
    [&bytes[..a], &bytes[b..end(b)], &bytes[end(a)..b], &bytes[a..end(a)], &bytes[end(b)..]].concat()
}

/// Bytes of any kind, mostly those that tags and lengths are made of.
pub fn noise(rng: &mut Rng) -> Vec<u8> {
    let byte = |rng: &mut Rng| if rng.once_in(4) { rng.draw() as u8 } else { rng.pick(&[0, 1, 2, 3, 4, 5, 9, 0x20, 0x21]) };
    (0..rng.within(0, 60)).map(|_| byte(rng)).collect()
}

/// A right query over terms that a shelf has and some that it has not.
pub fn query(rng: &mut Rng, terms: &[u32]) -> Vec<u8> {
    let mut asked: Vec<(u32, u8)> = Vec::new();
    for _ in 0..rng.within(1, 8) {
        let term = if terms.is_empty() || rng.once_in(5) { rng.draw() as u32 } else { rng.pick(terms) };
        if asked.iter().all(|a| a.0 != term) {
            asked.push((term, rng.pick(&[1, 1, 2, 7, 255])));
        }
    }
    let any = rng.within(1, 100) as u8;
    put_query(rng.pick(&[1, 1, 2, 3, 10, 100, any, any]), &asked)
}

/// A query with one thing wrong: a number out of range, a term twice, or its bytes damaged.
pub fn wrong_query(rng: &mut Rng, terms: &[u32]) -> Vec<u8> {
    let mut bytes = query(rng, terms);
    match rng.within(1, 5) {
        1 => bytes[3] = rng.pick(&[0, 101, 255]),
        2 if bytes.len() > 11 => bytes[11] = 0,
        3 => bytes.extend_from_within(4..),
        4 => bytes.truncate(4),
        _ => bytes = damage(rng, &bytes),
    }
    bytes
}

/// Runs for the writer, about half of them with a fault: a docid or score out of range, docids not rising, unequal runs, none, too many.
pub fn runs(rng: &mut Rng) -> (Vec<u32>, Vec<u16>) {
    let n = rng.pick(&[1, 2, 3, 99, 100, 101, 200, 201, 700, 6_399, 6_400]);
    let spread = spread(rng);
    let reach = rng.pick(&[1, 130, 2_000, 3_000_000]);
    let (mut docids, mut scores): (Vec<u32>, Vec<u16>) = postings(rng, n, reach, spread).into_iter().unzip();
    let i = rng.within(0, n - 1);
    match rng.within(1, 16) {
        1 => docids[i] = 0,
        2 => docids[i] = MAX_DOCID + 1,
        3 => docids[i] = u32::MAX,
        4 => scores[i] = 0,
        5 => docids[i] = docids[i / 2],
        6 => docids.truncate(i),
        7 => scores.truncate(i),
        8 => docids.resize(6_401, 1),
        9 => (docids, scores) = (Vec::new(), Vec::new()),
        _ => {}
    }
    (docids, scores)
}
