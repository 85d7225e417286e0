//! The program behind `./write`: a document from lines on standard input. `./write --help` tells the lines.
//!
//! It prints the document alone. Where there is none it prints why on standard error, and nothing of what a line holds: that may be a price.
use lumintayag::{Draft, HeaderValue, Kind, SeriesDraft, SeriesValue};
use std::error::Error;
use std::fmt::Debug;
use std::io::{stdin, stdout, Read, Write};
use std::process::ExitCode;

type Wrong = &'static str;

/// The value of this name, and the one after it where that is its codingScheme.
fn named<V: Copy + Debug>(all: &[V], name: &str) -> Result<(V, Option<V>), Wrong> {
    let is_scheme = |value: &V| format!("{value:?}").ends_with("Scheme");
    // DtdBDEWNachrichtenVersion has other letters as a name of Rust's.
    let at = all.iter().position(|value| format!("{value:?}").eq_ignore_ascii_case(name) && !is_scheme(value));
    let at = at.ok_or("no element of this name is here in a document of this kind")?;
    Ok((all[at], all.get(at + 1).copied().filter(is_scheme)))
}

/// The value and its codingScheme, which is the last word where the element has one.
fn put<V: Copy + Debug>(all: &[V], name: &str, rest: &str, mut set: impl FnMut(V, &str)) -> Result<(), Wrong> {
    match (named(all, name)?, rest.rsplit_once(' ')) {
        ((value, Some(scheme)), Some((text, last))) => {
            set(value, text);
            set(scheme, last);
        }
        ((value, _), _) => set(value, rest),
    }
    Ok(())
}

fn put_in_header(draft: &mut Draft, name: &str, rest: &str) -> Result<(), Wrong> {
    let mut twice = false;
    put(&HeaderValue::ALL, name, rest, |value, text| {
        twice |= draft.get(value).is_some();
        draft.set(value, text);
    })?;
    if twice {
        Err("this element has come before")
    } else {
        Ok(())
    }
}

fn put_in_series(series: &mut SeriesDraft, kind: Kind, name: &str, rest: &str) -> Result<(), Wrong> {
    if name.starts_with(|c: char| c.is_ascii_digit()) {
        let position = name.parse().map_err(|_| "no Pos")?;
        let amount = rest.parse().map_err(|_| "no Qty with at most three decimals")?;
        series.add_interval(position, amount);
        return Ok(());
    }
    let mut twice = false;
    put(SeriesValue::all(kind), name, rest, |value, text| {
        twice |= series.get(value).is_some();
        series.set(value, text);
    })?;
    if twice {
        Err("this element has come before in its series")
    } else {
        Ok(())
    }
}

fn put_line(draft: &mut Draft, line: &str) -> Result<(), Wrong> {
    let (name, rest) = line.split_once(' ').unwrap_or((line, ""));
    let kind = draft.kind();
    match (name, draft.series_mut().last_mut()) {
        ("", _) if rest.is_empty() => {}
        ("series", _) if rest.is_empty() => {
            draft.add_series();
        }
        (_, None) => put_in_header(draft, name, rest)?,
        (_, Some(series)) => put_in_series(series, kind, name, rest)?,
    }
    Ok(())
}

fn draft(lines: &str) -> Result<Draft, String> {
    let mut lines = (1..).zip(lines.lines());
    let kind = match lines.next() {
        Some((_, "kind 1")) => Kind::Beschaffungsanforderung,
        Some((_, "kind 2")) => Kind::Kostenblatt,
        _ => return Err("line 1: it has to be kind 1 or kind 2".into()),
    };
    let mut draft = Draft::new(kind);
    for (number, line) in lines {
        put_line(&mut draft, line).map_err(|wrong| format!("line {number}: {wrong}"))?;
    }
    Ok(draft)
}

fn run() -> Result<(), Box<dyn Error>> {
    let mut lines = String::new();
    stdin().read_to_string(&mut lines)?;
    let document = draft(&lines)?.to_document()?;
    stdout().write_all(&document)?;
    Ok(stdout().flush()?)
}

fn main() -> ExitCode {
    match run() {
        Ok(()) => ExitCode::SUCCESS,
        Err(why) => {
            eprintln!("{why}");
            ExitCode::FAILURE
        }
    }
}
