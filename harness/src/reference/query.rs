//! "A query is a field tag 20, length 1 (k), then one field tag 21, length 5, per term: term (4), weight (1)."

use super::fields::{field, number, put_field};
use super::{refuse, Refusal, MAX_K, MAX_TERMS};

pub const TAG_K: u8 = 0x20;
pub const TAG_TERM: u8 = 0x21;

#[derive(Clone, Debug, PartialEq, Eq)]
pub struct Query {
    pub k: u8,
    /// Each term with its weight.
    pub terms: Vec<(u32, u8)>,
}

/// Numbers 1 to 5, each judged over the whole query before the next.
pub fn read_query(bytes: &[u8]) -> Result<Query, Refusal> {
    let Some(&[k]) = field(bytes, 0, TAG_K) else { return refuse(1, 0) };
    let mut terms = Vec::new();
    let mut at = 4;
    while at < bytes.len() {
        let Some(value) = field(bytes, at, TAG_TERM).filter(|v| v.len() == 5) else { return refuse(1, at) };
        terms.push((number(&value[..4]), value[4]));
        at += 8;
    }
    if !(1..=MAX_K).contains(&k) {
        return refuse(2, 0);
    }
    if terms.is_empty() {
        return refuse(3, bytes.len());
    }
    let offset_of = |i: usize| 4 + 8 * i;
    if terms.len() > MAX_TERMS {
        return refuse(3, offset_of(MAX_TERMS));
    }
    if let Some(i) = terms.iter().position(|t| t.1 == 0) {
        return refuse(4, offset_of(i));
    }
    let is_repeat = |&i: &usize| terms[..i].iter().any(|t| t.0 == terms[i].0);
    if let Some(i) = (0..terms.len()).find(is_repeat) {
        return refuse(5, offset_of(i));
    }
    Ok(Query { k, terms })
}

/// A query's bytes, in range or not.
pub fn put_query(k: u8, terms: &[(u32, u8)]) -> Vec<u8> {
    let mut out = Vec::new();
    put_field(&mut out, TAG_K, &[k]);
    for &(term, weight) in terms {
        let mut value = term.to_be_bytes().to_vec();
        value.push(weight);
        put_field(&mut out, TAG_TERM, &value);
    }
    out
}
