//! `tagmurlen`: a shelf of errata sheets in a folder, built from a table of words, edited and searched.
//! This file has the arguments; each command has a function in `commands`.

mod answer;
mod commands;
mod failure;
mod fields;
mod note;
mod shelf;
mod show;
mod store;
mod table;
mod titles;
mod words;

use answer::Answer;
use clap::{Parser, Subcommand};
use failure::Failure;
use std::{
    io::{self, BufWriter},
    path::PathBuf,
    process::ExitCode,
};

/// A shelf of errata sheets in a folder. Exit code 0: done; 1: refused, or not sound; 2: usage, or input and output.
#[derive(Parser)]
#[command(name = "tagmurlen", version)]
struct Arguments {
    /// Answer in JSON, one object on standard output, also for a refusal
    #[arg(long, global = true)]
    json: bool,
    #[command(subcommand)]
    command: Command,
}

#[derive(Subcommand)]
enum Command {
    /// Make a new folder from a table on standard input: word, sheet, score and perhaps title, between tabs
    Build { folder: PathBuf },
    /// Give a sheet a score under a word, anew or instead of its old one
    Set {
        folder: PathBuf,
        #[arg(value_parser = fields::word)]
        word: String,
        #[arg(value_parser = fields::sheet)]
        sheet: u32,
        #[arg(value_parser = fields::score)]
        score: u16,
        /// The sheet's title; an empty one takes it away
        #[arg(long, value_parser = fields::title)]
        title: Option<String>,
    },
    /// Take a sheet from a word
    Clear {
        folder: PathBuf,
        word: String,
        #[arg(value_parser = fields::sheet)]
        sheet: u32,
    },
    /// Take a sheet from every word
    Withdraw {
        folder: PathBuf,
        #[arg(value_parser = fields::sheet)]
        sheet: u32,
    },
    /// Turn a word's list to the other layout, which changes no answer
    Convert { folder: PathBuf, word: String },
    /// Find the best sheets for 1 to 8 words
    Search {
        folder: PathBuf,
        #[arg(required = true)]
        words: Vec<String>,
        /// How many hits, 1 to 100
        #[arg(short, default_value = "10", value_parser = fields::k)]
        k: u8,
        /// What a word counts, 1 to 255; a word without one counts 1
        #[arg(long, value_name = "WORD=N", value_parser = fields::weight)]
        weight: Vec<(String, u8)>,
        /// Show the intervals too: which were opened, and which could be left shut
        #[arg(long)]
        book: bool,
    },
    /// Say whether a folder is undamaged and its shelf sound
    Check { folder: PathBuf },
    /// Show the sheets of a word
    Show { folder: PathBuf, word: String },
    /// Write all as a table that build takes back
    Dump { folder: PathBuf },
}

fn main() -> ExitCode {
    let arguments = Arguments::parse();
    let outcome = run(&arguments.command);
    let mut out = BufWriter::new(io::stdout().lock());
    let (printed, code) = match &outcome {
        Ok(answer) => (show::answer(answer, arguments.json, &mut out), 0),
        Err(failure) => {
            note::note(&failure.to_string());
            let printed = if arguments.json { show::failure(failure, &mut out) } else { Ok(()) };
            (printed, failure.exit_code())
        }
    };
    match printed {
        // Nobody reads on: that is the reader's choice, and no fault.
        Err(error) if error.kind() != io::ErrorKind::BrokenPipe => {
            note::note(&format!("standard output: {error}"));
            ExitCode::from(2)
        }
        _ => ExitCode::from(code),
    }
}

fn run(command: &Command) -> Result<Answer, Failure> {
    match command {
        Command::Build { folder } => commands::build(folder),
        Command::Set { folder, word, sheet, score, title } => {
            commands::set(folder, word, *sheet, *score, title.as_deref())
        }
        Command::Clear { folder, word, sheet } => commands::clear(folder, word, *sheet),
        Command::Withdraw { folder, sheet } => commands::withdraw(folder, *sheet),
        Command::Convert { folder, word } => commands::convert(folder, word),
        Command::Search { folder, words, k, weight, book } => {
            commands::search(folder, &commands::Asked { words, weights: weight, k: *k, book: *book })
        }
        Command::Check { folder } => commands::check(folder),
        Command::Show { folder, word } => commands::show(folder, word),
        Command::Dump { folder } => commands::dump(folder),
    }
}
