//! The report as one page that opens from disk: the list of cases, and in each what differs and the map of its registers.

use std::fmt::Write;
use std::path::Path;

use crate::answer::{Answer, Buffers};
use crate::case::CaseFile;
use crate::entries::{read_answer, read_case, Entry};
use crate::map::map;
use crate::options::Options;
use crate::report::{in_counts, Run};
use crate::run::Outcome;
use crate::words::{grouped, shown};

const STYLE: &str = include_str!("page.css");
const SCRIPT: &str = include_str!("page.js");

/// Groups of up to so many cases show their maps at once.
const OPEN: usize = 20;

pub fn page(run: &Run, options: &Options, answers: &Path) -> String {
    let title = if run.has_card {
        "Cases beside the card"
    } else {
        "Cases of the bench"
    };
    let mut html = format!(
        "<!DOCTYPE html>\n<html lang=en>\n<meta charset=utf-8>\n\
         <meta name=viewport content=\"width=device-width\">\n<title>{title}</title>\n\
         <style>\n{STYLE}</style>\n<h1>{title}</h1>\n"
    );
    write_summary(run, &mut html);
    write_legend(run, &mut html);
    for (heading, is_urgent, entries) in groups(run) {
        if entries.is_empty() {
            continue;
        }
        let count = grouped(entries.len());
        let _ = writeln!(html, "<h2>{heading} <small>{count}</small></h2>");
        let open = is_urgent && entries.len() <= OPEN;
        for entry in entries {
            write_case(run, entry, options, answers, open, &mut html);
        }
    }
    if !run.unread.is_empty() {
        html.push_str("<h2>Folders that cannot be read</h2>\n<ul>\n");
        for (name, wrong) in &run.unread {
            let _ = writeln!(html, "<li>{}: {}", escaped(&shown(name)), escaped(wrong));
        }
        html.push_str("</ul>\n");
    }
    let _ = write!(html, "<div id=tip></div>\n<script>\n{SCRIPT}</script>\n");
    html
}

type Group<'a> = (&'static str, bool, Vec<&'a Entry<'a>>);

/// Each case stands in one of them.
fn groups<'a>(run: &'a Run<'a>) -> Vec<Group<'a>> {
    let rest = |entry: &Entry| {
        let is_told = entry.differences() > 0 || entry.differs_in_doubt_alone();
        entry.head().is_some() && !is_told && entry.not_compared().is_none()
    };
    let equal = if run.has_card { "Equal" } else { "Answered" };
    vec![
        ("Differences, most first", true, run.differing()),
        (
            "Only doubtful bytes differ: needs no writer",
            true,
            run.with(|entry| entry.differs_in_doubt_alone()),
        ),
        (
            "Could not be compared",
            false,
            run.with(|entry| entry.not_compared().is_some()),
        ),
        (
            "Not answered",
            false,
            run.with(|entry| entry.head().is_none()),
        ),
        (equal, false, run.with(rest)),
    ]
}

fn write_summary(run: &Run, html: &mut String) {
    let _ = write!(html, "<p>{}.", run.outline());
    if run.has_card {
        let _ = write!(html, " Both agree: {}.", run.agreed());
    }
    let _ = writeln!(html, " Time: {}.</p>", run.time());
    html.push_str("<details><summary>Answers by number</summary>\n<table>\n");
    for (number, count) in run.numbers() {
        let (count, meaning) = (grouped(count), escaped(run.meanings.of(number)));
        let _ = writeln!(html, "<tr><td>{count}<td>{number}<td>{meaning}");
    }
    html.push_str("</table></details>\n");
}

fn write_legend(run: &Run, html: &mut String) {
    html.push_str("<p><span class=key><i class=d>00</i></span> doubtful");
    if run.has_card {
        html.push_str(
            " <span class=key><i class=x>00</i></span> differs \
             <span class=key><i class=\"x d\">00</i></span> differs and is doubtful \
             <span class=key><i class=m>00</i></span> the card's mark is another",
        );
    }
    html.push_str(
        " <span class=\"key v0\">00 00 00 00</span> a variable. \
         Bytes are the bench's; the pointer on one tells variable, element and value.</p>\n",
    );
}

fn write_case(
    run: &Run,
    entry: &Entry,
    options: &Options,
    answers: &Path,
    open: bool,
    html: &mut String,
) {
    let name = escaped(&entry.name());
    let answer = escaped(&answer_in_words(run, entry));
    let note = entry
        .compared()
        .map(|found| in_counts(&found.counts))
        .or_else(|| entry.not_compared().map(str::to_string))
        .unwrap_or_default();
    let row = format!(
        "<span class=name>{name}</span> <span>{answer}</span> <span class=note>{}</span>",
        escaped(&note)
    );
    let body = body(run, entry, options, answers);
    if body.is_empty() {
        let _ = writeln!(html, "<div class=case>{row}</div>");
        return;
    }
    let open = if open { " open" } else { "" };
    let _ = writeln!(
        html,
        "<details class=case{open}><summary>{row}</summary>\n{body}</details>"
    );
}

fn answer_in_words(run: &Run, entry: &Entry) -> String {
    match &entry.outcome {
        Outcome::NotAnswered(wrong) => wrong.clone(),
        Outcome::Answered { head, why, .. } => {
            let words = format!("{}, {}", head.number, run.meanings.of(head.number));
            match why {
                Some(why) => format!("{words}: {why}"),
                None => words,
            }
        }
    }
}

/// What a case shows where something differs, is doubtful or refused; otherwise nothing.
fn body(run: &Run, entry: &Entry, options: &Options, answers: &Path) -> String {
    let mut html = String::new();
    let Some((case, bench)) = load(entry, answers) else {
        return html;
    };
    let card = match (&options.card, entry.compared()) {
        (Some(card), Some(_)) => read_answer(&entry.case.answer_below(card), true).ok(),
        _ => None,
    };
    let is_told = entry.differences() > 0 || entry.differs_in_doubt_alone();
    let has_doubt = bench.buffers.as_ref().is_some_and(has_marks);
    let is_refused = bench.head.number != 0 && !bench.head.nothing_ran();
    if !is_told && !has_doubt && !is_refused {
        return html;
    }
    write_lines(&run.about(entry), &mut html);
    if let Some(buffers) = bench
        .buffers
        .filter(|buffers| !buffers.registers.is_empty())
    {
        let card = card.and_then(|card| card.buffers);
        html.push_str(&map(&case, &buffers, card.as_ref()));
    }
    write_lines(&run.told(entry), &mut html);
    html
}

fn write_lines(lines: &[String], html: &mut String) {
    if lines.is_empty() {
        return;
    }
    html.push_str("<ul>\n");
    for line in lines {
        let class = if line.starts_with(' ') {
            " class=in"
        } else {
            ""
        };
        let _ = writeln!(html, "<li{class}>{}", escaped(line.trim_start()));
    }
    html.push_str("</ul>\n");
}

fn load(entry: &Entry, answers: &Path) -> Option<(CaseFile, Answer)> {
    let case = read_case(entry.case, entry.head()?).ok()?;
    let answer = read_answer(&entry.case.answer_below(answers), false).ok()?;
    Some((case, answer))
}

fn has_marks(buffers: &Buffers) -> bool {
    let marks = [&buffers.register_marks, &buffers.memory_marks];
    marks
        .into_iter()
        .flatten()
        .any(|marks| marks.iter().any(|&mark| mark != 0))
}

fn escaped(text: &str) -> String {
    let mut html = String::with_capacity(text.len());
    for character in text.chars() {
        match character {
            '&' => html.push_str("&amp;"),
            '<' => html.push_str("&lt;"),
            '>' => html.push_str("&gt;"),
            '"' => html.push_str("&quot;"),
            '\'' => html.push_str("&#39;"),
            _ => html.push(character),
        }
    }
    html
}

#[cfg(test)]
mod tests {
    use super::*;

    #[test]
    fn nothing_becomes_a_tag() {
        assert_eq!(escaped("<b a='\"'>&"), "&lt;b a=&#39;&quot;&#39;&gt;&amp;");
    }
}
