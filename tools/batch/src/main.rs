//! Runs a folder of cases through the proved programs and compares their answers with a card's; `./bench batch` calls it.

mod answer;
mod case;
mod compare;
mod entries;
mod folders;
mod hex;
mod listing;
mod map;
mod options;
mod page;
mod progress;
mod report;
mod run;
mod words;

use std::fs;
use std::io::{self, Write};
use std::os::unix::ffi::OsStrExt;
use std::path::Path;
use std::process::ExitCode;
use std::thread;

use entries::{entries, tell_instructions};
use folders::{find_cases, remove_unfinished, written_over, Found};
use options::Options;
use progress::Progress;
use report::Run;
use run::{count_answers, write_whole, Runner};
use words::{amount, grouped, reason, shown, Meanings};

fn main() -> ExitCode {
    let mut words = std::env::args_os().skip(1).peekable();
    let so_far = words.next_if(|word| word == "so-far").is_some();
    let options = match Options::read(words) {
        Ok(options) => options,
        Err(wrong) => return misuse(&wrong),
    };
    if so_far {
        return tell_how_far(&options);
    }
    match batch(&options) {
        Ok(status) => ExitCode::from(status),
        Err(Stop::Misuse(wrong)) => misuse(&wrong),
        Err(Stop::Failure(wrong)) => fail(&wrong),
        // As if by the signal of a closed pipe.
        Err(Stop::ReaderIsGone) => ExitCode::from(141),
    }
}

enum Stop {
    Misuse(String),
    Failure(String),
    ReaderIsGone,
}

fn say(text: &str) {
    let _ = writeln!(io::stderr(), "bench: {text}");
}

fn misuse(wrong: &str) -> ExitCode {
    say(&format!("{wrong} (bench help tells the uses)"));
    ExitCode::from(2)
}

fn fail(wrong: &str) -> ExitCode {
    say(wrong);
    ExitCode::from(2)
}

fn name_of(path: &Path) -> String {
    shown(path.as_os_str().as_bytes())
}

/// After an interruption: what is there already.
fn tell_how_far(options: &Options) -> ExitCode {
    let Found { cases, .. } = find_cases(&options.folder);
    let answers = options.out.as_deref().unwrap_or(&options.folder);
    remove_unfinished(&cases, answers);
    let there = grouped(count_answers(&options.bench, &cases, answers));
    let all = amount(cases.len(), "case");
    progress::clear();
    fail(&format!(
        "interrupted; {there} of {all} have their answers, and the same call goes on from there"
    ))
}

fn batch(options: &Options) -> Result<u8, Stop> {
    let answers = options.out.as_deref().unwrap_or(&options.folder);
    look_at_folders(options)?;
    let Found { cases, unread } = find_cases(&options.folder);
    let name = name_of(&options.folder);
    if let Some((_, wrong)) = unread.iter().find(|(below, _)| below.is_empty()) {
        return Err(Stop::Failure(format!("{name} cannot be read: {wrong}")));
    }
    if cases.is_empty() && unread.is_empty() {
        return Err(Stop::Failure(format!("there is no case below {name}")));
    }
    if let Some(card) = &options.card {
        if let Some(case) = written_over(&cases, answers, card) {
            let name = name_of(&case.answer_below(answers));
            return Err(Stop::Misuse(format!(
                "{name} would be written over, and is the card's; --out names another folder"
            )));
        }
    }
    remove_unfinished(&cases, answers);
    let runner = Runner {
        bench: &options.bench,
        why: &options.why,
        answers,
        jobs: options
            .jobs
            .or_else(|| thread::available_parallelism().ok().map(usize::from))
            .unwrap_or(1),
    };
    let progress = Progress::of(cases.len());
    let outcomes = runner.run(&cases, &progress).map_err(Stop::Failure)?;
    let mut run = Run {
        entries: entries(&cases, outcomes, options.card.as_deref(), answers),
        unread,
        meanings: Meanings::from_lines(&options.meanings),
        has_card: options.card.is_some(),
        seconds: 0.0,
    };
    let mut status = 0;
    if !tell_instructions(&mut run.entries, &options.listing) {
        say("the program listing broke off; the instructions are not told");
        status = 2;
    }
    run.seconds = progress.seconds();
    if let Some(html) = &options.html {
        let text = page::page(&run, options, answers);
        if let Err(error) = write_whole(html, text.as_bytes()) {
            let name = name_of(html);
            say(&format!("{name} cannot be written: {}", reason(&error)));
            status = 2;
        }
    }
    write_out(&run.text())?;
    say(&format!("{}; {:.3} s", run.outline(), run.seconds));
    Ok(status.max(run.status()))
}

fn look_at_folders(options: &Options) -> Result<(), Stop> {
    for folder in [Some(&options.folder), options.card.as_ref()]
        .into_iter()
        .flatten()
    {
        let name = name_of(folder);
        match fs::metadata(folder) {
            Ok(about) if about.is_dir() => {}
            Ok(_) => return Err(Stop::Misuse(format!("{name} is no folder"))),
            Err(error) if error.kind() == io::ErrorKind::NotFound => {
                return Err(Stop::Misuse(format!("there is no folder '{name}'")))
            }
            Err(error) => {
                let reason = reason(&error);
                return Err(Stop::Failure(format!("{name} cannot be read: {reason}")));
            }
        }
    }
    if let Some(out) = &options.out {
        fs::create_dir_all(out).map_err(|error| {
            let (name, reason) = (name_of(out), reason(&error));
            Stop::Failure(format!("the folder {name} cannot be made: {reason}"))
        })?;
    }
    Ok(())
}

/// The report, to standard output; whoever reads it may have seen enough.
fn write_out(text: &str) -> Result<(), Stop> {
    let mut output = io::stdout().lock();
    let written = output.write_all(text.as_bytes());
    match written.and_then(|()| output.flush()) {
        Ok(()) => Ok(()),
        Err(error) if error.kind() == io::ErrorKind::BrokenPipe => Err(Stop::ReaderIsGone),
        Err(_) => Err(Stop::Failure(
            "standard output cannot be written".to_string(),
        )),
    }
}
