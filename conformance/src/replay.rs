//! Replays recorded calls with every engine there is.

use std::fs;
use std::path::{Path, PathBuf};

use crate::interface::{engines, Counts, Engine, Lent};
use crate::report::difference;
use crate::trace::{number, one_octet, poke, read_call, read_expected, shorten};

/// Replays the files. Answers whether there was no difference. A file that is not there is none: nothing is replayed then.
pub fn run(files: &[PathBuf]) -> Result<bool, String> {
    let missing: Vec<_> =
        files.iter().filter(|file| !file.is_file()).map(|file| format!("no such trace file: {}", file.display())).collect();
    if !missing.is_empty() {
        return Err(missing.join("\n"));
    }
    let mut same = true;
    let mut totals: Vec<Counts> = engines().iter().map(|_| Counts::default()).collect();
    for file in files {
        let text = fs::read_to_string(file).map_err(|error| format!("{}: {error}", file.display()))?;
        for (engine, total) in engines().into_iter().zip(&mut totals) {
            let (counts, differences) = replay(engine, file, &text)?;
            let verdict = if differences == 0 { "no difference".into() } else { format!("{differences} CALLS DIFFER") };
            println!("{}: {} calls, {}: {verdict}", name(file), counts.total(), engine.name());
            same &= differences == 0;
            total.join(&counts);
        }
    }
    let alike = totals.iter().all(|total| *total == totals[0]);
    for (engine, total) in engines().iter().zip(&totals).take(if alike { 1 } else { totals.len() }) {
        let name = if alike { "each engine" } else { engine.name() };
        println!("{} calls of {} files replayed, {name}:", total.total(), files.len());
        total.print();
    }
    Ok(same)
}

fn name(file: &Path) -> String {
    file.file_name().map_or_else(String::new, |name| name.to_string_lossy().into_owned())
}

/// Replays one file: the counts and the number of differing calls. The first of them is told in full; after each the table
/// goes on as recorded.
fn replay(engine: &dyn Engine, file: &Path, text: &str) -> Result<(Counts, u64), String> {
    let mut counts = Counts::default();
    let mut differences = 0;
    let mut table = Vec::new();
    let mut lines = text.lines().enumerate().peekable();
    while let Some((at, line)) = lines.next() {
        let place = format!("{}:{}", file.display(), at + 1);
        let fault = |what: String| format!("{place}: {what}");
        if line.is_empty() || line.starts_with('#') {
            continue;
        }
        let words: Vec<&str> = line.split(' ').collect();
        match words[..] {
            ["new", length, octet] => table = vec![one_octet(octet).map_err(fault)?; number(length).map_err(fault)?],
            ["poke", offset, with] => poke(&mut table, offset, with).map_err(fault)?,
            _ => {
                let call = read_call(&words).map_err(fault)?;
                let (_, returns) = lines.next().ok_or_else(|| fault("no line with what it returns".into()))?;
                let changes = lines.next_if(|(_, line)| line.starts_with("~ ")).map(|(_, line)| line);
                let expected = read_expected(&call, &table, returns, changes).map_err(fault)?;
                let mut lent = Lent::for_call(&call);
                let returned = call.make(engine, &mut table, &mut lent);
                counts.add(&call, returned);
                if let Some(what) = difference((returned, &lent, &table), (expected.number, &expected.lent, &expected.table)) {
                    if differences == 0 {
                        println!("{place}: {} differs\n  {}\n{what}", engine.name(), shorten(line));
                    }
                    differences += 1;
                }
                table = call.used_on(expected.number, &expected.table, &expected.lent).to_vec();
            }
        }
    }
    Ok((counts, differences))
}
