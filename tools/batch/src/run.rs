//! Every case through the program, some at a time, each answer written whole or not at all.

use std::fs::{self, File};
use std::io::{self, Read, Write};
use std::os::unix::fs::MetadataExt;
use std::path::Path;
use std::process::{Command, Stdio};
use std::sync::atomic::{AtomicUsize, Ordering};
use std::sync::OnceLock;
use std::thread;

use crate::answer::{Answer, Head, TOO_LONG};
use crate::folders::{unfinished_name, Case};
use crate::progress::Progress;
use crate::words::reason;

/// What became of a case.
pub enum Outcome {
    Answered {
        head: Head,
        made: bool,
        /// Of 13 and 14, what is wrong with the file.
        why: Option<String>,
    },
    NotAnswered(String),
}

pub struct Runner<'a> {
    pub bench: &'a Path,
    pub why: &'a Path,
    pub answers: &'a Path,
    pub jobs: usize,
}

/// A moment as a file has it: seconds and nanoseconds.
type Moment = (i64, i64);

impl Runner<'_> {
    /// The outcomes in the order of the cases.
    pub fn run(&self, cases: &[Case], progress: &Progress) -> Result<Vec<Outcome>, String> {
        let program = changed(self.bench).map_err(|error| {
            let name = self.bench.display();
            format!("the program {name} cannot be read: {}", reason(&error))
        })?;
        let next = AtomicUsize::new(0);
        let outcomes: Vec<_> = cases.iter().map(|_| OnceLock::new()).collect();
        let work = || loop {
            let index = next.fetch_add(1, Ordering::Relaxed);
            let Some(case) = cases.get(index) else { break };
            let _ = outcomes[index].set(self.answer(case, index, program));
            progress.step();
        };
        thread::scope(|scope| {
            // Where no more threads are to be had, fewer do.
            let watcher = thread::Builder::new().spawn_scoped(scope, || progress.show());
            let others: Vec<_> = (1..self.jobs.min(cases.len()))
                .map_while(|_| thread::Builder::new().spawn_scoped(scope, work).ok())
                .collect();
            work();
            for other in others {
                let _ = other.join();
            }
            progress.end();
            if let Ok(watcher) = watcher {
                watcher.thread().unpark();
            }
        });
        let outcomes = outcomes.into_iter().map(|outcome| {
            let lost = || Outcome::NotAnswered("the run of the case broke off".to_string());
            outcome.into_inner().unwrap_or_else(lost)
        });
        Ok(outcomes.collect())
    }

    fn answer(&self, case: &Case, index: usize, program: Moment) -> Outcome {
        let place = case.answer_below(self.answers);
        let (answer, made) = match is_there(case, &place, program) {
            Some(answer) => (answer, false),
            None => match self.make(case, index, &place) {
                Ok(answer) => (answer, true),
                Err(wrong) => return Outcome::NotAnswered(wrong),
            },
        };
        let head = answer.head;
        let why = head.nothing_ran().then(|| self.why(case, head)).flatten();
        Outcome::Answered { head, made, why }
    }

    /// The answer gets the moment before its case is opened to be answered: a case that changes meanwhile is newer.
    fn make(&self, case: &Case, index: usize, place: &Path) -> Result<Answer, String> {
        let unwritten =
            |error: io::Error| format!("the answer cannot be written: {}", reason(&error));
        let unfinished = place.with_file_name(unfinished_name(std::process::id(), index));
        open_case(&case.file)?;
        if let Some(folder) = place.parent() {
            fs::create_dir_all(folder).map_err(unwritten)?;
        }
        let mut file = File::create(&unfinished).map_err(unwritten)?;
        let began = file.metadata().and_then(|about| about.modified());
        let made = open_case(&case.file)
            .and_then(|case| answer_of(self.bench, case))
            .and_then(|(text, answer)| {
                file.write_all(&text)
                    .and_then(|()| file.set_modified(began?))
                    .and_then(|()| fs::rename(&unfinished, place))
                    .map_err(unwritten)?;
                Ok(answer)
            });
        if made.is_err() {
            let _ = fs::remove_file(&unfinished);
        }
        made
    }

    fn why(&self, case: &Case, head: Head) -> Option<String> {
        let output = Command::new(self.why)
            .arg(head.hex())
            .stdin(File::open(&case.file).ok()?)
            .stderr(Stdio::null())
            .output()
            .ok()?;
        let said = String::from_utf8(output.stdout).ok()?;
        let said = said.trim_end().split_once(": ")?.1;
        Some(said.to_string())
    }
}

/// Something that would wait for a writer, such as a named pipe, is no case.
fn open_case(path: &Path) -> Result<File, String> {
    let unread = |error: io::Error| format!("cannot be read: {}", reason(&error));
    if !fs::metadata(path).map_err(unread)?.is_file() {
        return Err("cannot be read: not a file".to_string());
    }
    File::open(path).map_err(unread)
}

fn answer_of(program: &Path, case: File) -> Result<(Vec<u8>, Answer), String> {
    let child = Command::new(program)
        .stdin(case)
        .stdout(Stdio::piped())
        .stderr(Stdio::null())
        .spawn();
    let mut child =
        child.map_err(|error| format!("the program cannot be started: {}", reason(&error)))?;
    let mut text = Vec::new();
    let read = match child.stdout.take() {
        Some(stdout) => stdout.take(TOO_LONG).read_to_end(&mut text),
        None => Ok(0),
    };
    if text.len() as u64 == TOO_LONG {
        let _ = child.kill();
    }
    let ended = child.wait();
    if read.is_err() || !ended.is_ok_and(|status| status.success()) {
        return Err("the program broke off".to_string());
    }
    match Answer::read(&text, false) {
        Ok(answer) => Ok((text, answer)),
        Err(_) => Err("the program broke off".to_string()),
    }
}

/// The answer that stands there already, if it is one and newer than its case and the program.
fn is_there(case: &Case, place: &Path, program: Moment) -> Option<Answer> {
    let about = fs::metadata(place).ok()?;
    let made = (about.mtime(), about.mtime_nsec());
    if made <= program || made <= changed(&case.file).ok()? || File::open(&case.file).is_err() {
        return None;
    }
    Answer::read(&fs::read(place).ok()?, false).ok()
}

/// When a file changed last, or came to stand there: one that is put in another's place may have an old mtime.
fn changed(path: &Path) -> io::Result<Moment> {
    let link = fs::symlink_metadata(path)?;
    let file = fs::metadata(path)?;
    let moments = [link, file].map(|about| {
        let content = (about.mtime(), about.mtime_nsec());
        content.max((about.ctime(), about.ctime_nsec()))
    });
    Ok(moments[0].max(moments[1]))
}

/// How many cases have an answer that need not be made again.
pub fn count_answers(bench: &Path, cases: &[Case], answers: &Path) -> usize {
    let Ok(program) = changed(bench) else {
        return 0;
    };
    cases
        .iter()
        .filter(|case| is_there(case, &case.answer_below(answers), program).is_some())
        .count()
}

/// Writes a file beside its place and puts it there whole. A device or a pipe is written as it is, and a link leads to its file.
pub fn write_whole(place: &Path, text: &[u8]) -> io::Result<()> {
    if fs::metadata(place).is_ok_and(|about| !about.is_file()) {
        return fs::write(place, text);
    }
    let place = fs::canonicalize(place).unwrap_or_else(|_| place.to_path_buf());
    let mut name = place.file_name().unwrap_or_default().to_os_string();
    name.push(format!(".unfinished-{}", std::process::id()));
    let unfinished = place.with_file_name(name);
    let written = fs::write(&unfinished, text).and_then(|()| fs::rename(&unfinished, &place));
    if written.is_err() {
        let _ = fs::remove_file(&unfinished);
    }
    written
}
