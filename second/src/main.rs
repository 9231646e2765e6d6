//! The second program: docs/RULES.md in plain Rust, written from the rules and never from the proved code, which is held against it.

mod bench;
mod calls;
mod chance;
mod coverage;
mod coverage_judge;
mod coverage_late;
mod coverage_pairs;
mod coverage_stored;
mod demand;
mod exhaust;
mod generate;
mod host;
mod judge;
mod listing;
mod nested;
mod numbers;
mod run;
mod sheet;
mod simulate;
mod stored;
mod supply;
mod text;
mod trace;
mod tree;

use std::io::{BufRead, BufWriter, Read, Write};
use std::process::ExitCode;

const USAGE: &str = "second answer              calls on standard input to answers
second generate SEED COUNT KIND   calls of a kind (`second kinds` lists them)
second kinds               the kinds of call
second sheets SEED COUNT DIR      sheets, sound and damaged, into the files 1, 2, .. of a folder
second list                the listing of the sheet on standard input
second text                the sheet on standard input as text, one line a record; status 1 and `refused NUMBER PLACE` where it has none
second bytes               such a text on standard input as a sheet; status 1 and a message a line where lines are wrong
second line PLACE          the line of such a text whose record has the byte at a place; status 1 as above
second every traces|components|runs|sheets   every small call of a kind
second simulate SEED COUNT        calls about runs of accepted trees: no walk misses, each child's service is legal
second rows                the rows of the benchmark, a line each
second row PLACE KIND      the calls of a row (`walk`: the longest walk)
second coverage            counts what the calls on standard input reach, and fails if something is not reached";

fn input() -> Result<Vec<u8>, String> {
    let mut bytes = vec![];
    std::io::stdin().read_to_end(&mut bytes).map_err(|error| error.to_string())?;
    Ok(bytes)
}

/// Takes each call on standard input.
fn each_call(mut work: impl FnMut(calls::Call) -> Result<(), String>) -> Result<(), String> {
    for (place, line) in std::io::stdin().lock().lines().enumerate() {
        let line = line.map_err(|error| error.to_string())?;
        work(calls::parse(&line).map_err(|wrong| format!("line {}: {wrong}", place + 1))?)?;
    }
    Ok(())
}

fn number(word: &str) -> Result<u64, String> {
    word.parse().map_err(|_| format!("`{word}` is not a number\n{USAGE}"))
}

/// What a command on a text prints, or why the text or the sheet is not taken, a message a line.
fn text_command(words: &[&str]) -> Option<Result<Vec<u8>, Vec<String>>> {
    let given = || input().map_err(|wrong| vec![wrong]);
    Some(match words {
        ["text"] => given().and_then(|sheet| match text::text(&sheet) {
            Ok(lines) => Ok(lines.into_bytes()),
            Err((refusal, place)) => Err(vec![format!("refused {refusal} {place}")]),
        }),
        ["bytes"] => given().and_then(|written| text::written(&written)).map(|taken| taken.bytes),
        ["line", place] => match place.parse() {
            Ok(place) => given().and_then(|written| text::written(&written)).and_then(|taken| match taken.line(place) {
                Ok(line) => Ok(format!("{line}\n").into_bytes()),
                Err(wrong) => Err(vec![wrong]),
            }),
            Err(_) => Err(vec![format!("`{place}` is no byte place")]),
        },
        _ => return None,
    })
}

fn command(words: &[&str]) -> Result<(), String> {
    let mut out = BufWriter::new(std::io::stdout().lock());
    let said = |result: std::io::Result<()>| result.map_err(|error| error.to_string());
    match words {
        ["answer"] => each_call(|call| said(writeln!(out, "{}", calls::answer(call))))?,
        ["generate", seed, count, kind] => {
            let mut chance = chance::Chance::new(number(seed)?);
            for _ in 0..number(count)? {
                let call = generate::call(&mut chance, kind).ok_or_else(|| format!("`{kind}` is no kind of call"))?;
                said(writeln!(out, "{call}"))?;
            }
        }
        ["sheets", seed, count, folder] => {
            let mut chance = chance::Chance::new(number(seed)?);
            for place in 1..=number(count)? {
                said(std::fs::write(format!("{folder}/{place}"), generate::given_sheet(&mut chance)))?;
            }
        }
        ["kinds"] => {
            for kind in generate::KINDS {
                said(writeln!(out, "{kind}"))?;
            }
        }
        ["every", kind] => {
            let calls = match *kind {
                "traces" => exhaust::traces(),
                "components" => exhaust::components(),
                "runs" => exhaust::runs(),
                "sheets" => exhaust::sheets(),
                _ => return Err(USAGE.to_string()),
            };
            for call in calls {
                said(writeln!(out, "{call}"))?;
            }
        }
        ["simulate", seed, count] => {
            let mut chance = chance::Chance::new(number(seed)?);
            for _ in 0..number(count)? {
                for call in simulate::calls(&mut chance) {
                    said(writeln!(out, "{call}"))?;
                }
            }
        }
        ["rows"] => {
            for row in bench::rows() {
                said(writeln!(out, "{}", row.name))?;
            }
        }
        ["row", "walk"] => said(out.write_all(bench::walk().as_bytes()))?,
        ["row", place, kind] if bench::KINDS.contains(kind) => {
            let rows = bench::rows();
            let row = place.parse::<usize>().ok().and_then(|place| rows.get(place)).ok_or(USAGE)?;
            said(out.write_all(bench::calls(row, kind).as_bytes()))?;
        }
        ["list"] => said(out.write_all(listing::listing(&input()?).as_bytes()))?,
        ["coverage"] => {
            let mut seen = coverage::Seen::default();
            each_call(|call| {
                seen.count(call);
                Ok(())
            })?;
            let (report, missing) = seen.report();
            said(write!(out, "{report}"))?;
            said(out.flush())?;
            if missing > 0 {
                return Err(format!("{missing} not reached"));
            }
        }
        _ => return Err(USAGE.to_string()),
    }
    said(out.flush())
}

fn main() -> ExitCode {
    let words: Vec<String> = std::env::args().skip(1).collect();
    let words: Vec<&str> = words.iter().map(String::as_str).collect();
    let done = match text_command(&words) {
        Some(Err(messages)) => {
            eprintln!("{}", messages.join("\n"));
            return ExitCode::from(1);
        }
        Some(Ok(bytes)) => std::io::stdout().write_all(&bytes).and_then(|()| std::io::stdout().flush()).map_err(|error| error.to_string()),
        None => command(&words),
    };
    match done {
        Ok(()) => ExitCode::SUCCESS,
        Err(message) => {
            eprintln!("second: {message}");
            ExitCode::from(2)
        }
    }
}
