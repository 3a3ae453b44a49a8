//! A query's numbers, with nothing allocated.

use super::Refusal;
use crate::reference::{MAX_K, MAX_TERMS};

#[derive(Clone, Copy, Default)]
pub(super) struct Asked {
    pub(super) term: u32,
    pub(super) weight: u32,
}

pub(super) struct Query {
    pub(super) k: usize,
    terms: [Asked; MAX_TERMS],
    asked: usize,
}

impl Query {
    pub(super) fn terms(&self) -> &[Asked] {
        &self.terms[..self.asked]
    }
}

/// Where a term's field begins.
fn offset_of(term: usize) -> usize {
    4 + 8 * term
}

/// In the order 1 to 5, each over the whole query.
pub(super) fn read_query(bytes: &[u8]) -> Result<Query, Refusal> {
    let Some((&[0x20, 0, 1, k], fields)) = bytes.split_first_chunk() else { return Err((1, 0)) };
    let (fields, rest) = fields.as_chunks::<8>();
    let asked = fields.iter().take_while(|field| field[..3] == [0x21, 0, 5]).count();
    if asked < fields.len() || !rest.is_empty() {
        return Err((1, offset_of(asked)));
    }
    if k == 0 || k > MAX_K {
        return Err((2, 0));
    }
    if asked == 0 || asked > MAX_TERMS {
        return Err((3, offset_of(asked.min(MAX_TERMS))));
    }
    let mut terms = [Asked::default(); MAX_TERMS];
    for (term, &[_, _, _, t0, t1, t2, t3, weight]) in terms.iter_mut().zip(fields) {
        *term = Asked { term: u32::from_be_bytes([t0, t1, t2, t3]), weight: weight.into() };
    }
    if let Some(i) = terms[..asked].iter().position(|t| t.weight == 0) {
        return Err((4, offset_of(i)));
    }
    if let Some(i) = (1..asked).find(|&i| terms[..i].iter().any(|t| t.term == terms[i].term)) {
        return Err((5, offset_of(i)));
    }
    Ok(Query { k: k.into(), terms, asked })
}
