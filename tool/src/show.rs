//! Answers and failures on standard output, as text for people or JSON for programs.

use crate::{answer::*, failure::Failure, fields::counted};
use serde_json::json;
use std::io::{self, Write};

/// Prints an answer. The caller decides what a failed write means.
pub fn answer(answer: &Answer, as_json: bool, out: &mut impl Write) -> io::Result<()> {
    if as_json {
        serde_json::to_writer(&mut *out, answer)?;
        writeln!(out)?;
    } else {
        match answer {
            Answer::Built(built) => text_of_built(built, out)?,
            Answer::Edited(edited) => {
                writeln!(out, "done: {}\nshelf {}, {} bytes", edited.done, edited.shelf, edited.bytes)?
            }
            Answer::Found(found) => text_of_found(found, out)?,
            Answer::Sound(sound) => text_of_sound(sound, out)?,
            Answer::Listed(listed) => text_of_listed(listed, out)?,
            Answer::Dumped(dumped) => text_of_dumped(dumped, out)?,
        }
    }
    out.flush()
}

/// A failure as JSON. As text it goes to standard error, where people look for it.
pub fn failure(failure: &Failure, out: &mut impl Write) -> io::Result<()> {
    let refusal = failure.refusal();
    let error = json!({
        "message": failure.to_string(),
        "number": refusal.map(|refusal| refusal.number),
        "offset": refusal.map(|refusal| refusal.offset),
    });
    writeln!(out, "{}", json!({ "error": error }))?;
    out.flush()
}

fn text_of_built(built: &Built, out: &mut impl Write) -> io::Result<()> {
    writeln!(out, "built {} with {}", counted(built.words, "word"), counted(built.postings, "posting"))?;
    writeln!(out, "shelf {}, {} bytes", built.shelf, built.bytes)
}

fn text_of_sound(sound: &Sound, out: &mut impl Write) -> io::Result<()> {
    writeln!(out, "sound: {} with {}", counted(sound.words, "word"), counted(sound.postings, "posting"))?;
    writeln!(out, "shelf {}, {} bytes", sound.shelf, sound.bytes)
}

fn text_of_found(found: &Found, out: &mut impl Write) -> io::Result<()> {
    if found.hits.is_empty() {
        writeln!(out, "no sheet matches")?;
    } else {
        writeln!(out, "{:>4} {:>8} {:>9}  title", "rank", "sheet", "score")?;
    }
    for hit in &found.hits {
        let title = hit.title.as_deref().unwrap_or("-");
        writeln!(out, "{:>4} {:>8} {:>9}  {title}", hit.rank, hit.sheet, hit.score)?;
    }
    if let Some(book) = &found.book {
        writeln!(out, "{:>8} {:>8} {:>9}  mark", "first", "last", "ceiling")?;
        for row in book {
            writeln!(out, "{:>8} {:>8} {:>9}  {}", row.first, row.last, row.ceiling, row.mark)?;
        }
    }
    writeln!(out, "{} of {} opened", found.blocks_opened, counted(found.blocks, "block"))
}

fn text_of_listed(listed: &Listed, out: &mut impl Write) -> io::Result<()> {
    if listed.postings.is_empty() {
        return writeln!(out, "no sheet has the word {:?} now", listed.word);
    }
    writeln!(out, "{:>8} {:>6}  title", "sheet", "score")?;
    for row in &listed.postings {
        writeln!(out, "{:>8} {:>6}  {}", row.sheet, row.score, row.title.as_deref().unwrap_or("-"))?;
    }
    Ok(())
}

/// A table that `build` reads.
fn text_of_dumped(dumped: &Dumped, out: &mut impl Write) -> io::Result<()> {
    for listed in &dumped.words {
        for row in &listed.postings {
            let title = row.title.as_ref().map_or(String::new(), |title| format!("\t{title}"));
            writeln!(out, "{}\t{}\t{}{title}", listed.word, row.sheet, row.score)?;
        }
    }
    Ok(())
}
