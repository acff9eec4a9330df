use std::path::{Path, PathBuf};
use std::process::ExitCode;
use std::str::FromStr;

use conformance::{agreement, benchmark, delay, differential, replay};

const USAGE: &str = "usage: conformance replay [TRACE…]
       conformance differential [CALLS [SEED]]
       conformance agreement [CALLS [SEED]]
       conformance delay [there=MS] [back=MS] [starts=a|b|both] [later=MS] [chip=MS] [answer=MS] [asks=MS] [token=a|b|both]
                         [requests=all|new] [password=same|other] [a=GROUPS] [b=GROUPS] [form=wide|narrow|mixed]
                         [period=MS] [aperiod=MS] [bperiod=MS] [limit=N] [alimit=N] [blimit=N]
       conformance delay most [the same words]
       conformance delay sweep [MOST]
       conformance delay settings [every]
       conformance benchmark";

/// Calls that the differential and demand 3's lists make unless told otherwise.
const CALLS: u64 = 200_000;
const SEED: u64 = 1;

fn main() -> ExitCode {
    let words: Vec<String> = std::env::args().skip(1).collect();
    let result = match words.split_first() {
        Some((what, files)) if what == "replay" => traces(files).and_then(|files| replay::run(&files)),
        Some((what, rest)) if what == "differential" => numbers(rest).and_then(|(calls, seed)| differential::run(calls, seed)),
        Some((what, rest)) if what == "agreement" => numbers(rest).and_then(|(calls, seed)| agreement::run(calls, seed)),
        Some((what, rest)) if what == "delay" => delay::run(rest),
        Some((what, [])) if what == "benchmark" => benchmark::run(),
        _ => Err(USAGE.into()),
    };
    match result {
        Ok(true) => ExitCode::SUCCESS,
        Ok(false) => ExitCode::FAILURE,
        Err(error) => {
            eprintln!("{error}");
            ExitCode::from(2)
        }
    }
}

/// The files named, or those in the package's folder traces.
fn traces(named: &[String]) -> Result<Vec<PathBuf>, String> {
    if !named.is_empty() {
        return Ok(named.iter().map(PathBuf::from).collect());
    }
    let folder = Path::new(env!("CARGO_MANIFEST_DIR")).join("traces");
    let entries = folder.read_dir().map_err(|error| format!("{}: {error}", folder.display()))?;
    let mut files: Vec<PathBuf> =
        entries.filter_map(|entry| Some(entry.ok()?.path())).filter(|path| path.extension().is_some_and(|end| end == "txt")).collect();
    files.sort();
    Ok(files)
}

/// Calls and seed.
fn numbers(words: &[String]) -> Result<(u64, u64), String> {
    let number = |place: usize, default| {
        words.get(place).map_or(Ok(default), |word| u64::from_str(&word.replace('_', "")).map_err(|_| USAGE.to_string()))
    };
    match words.len() {
        0..=2 => Ok((number(0, CALLS)?, number(1, SEED)?)),
        _ => Err(USAGE.into()),
    }
}
