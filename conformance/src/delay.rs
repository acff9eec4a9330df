//! What becomes of a handshake when frames take long and none is lost: one play in full, or the outcome against delay.

use crate::air::{play, Maker, Outcome, Plan, EVENTS, LAST, NAMES};
use crate::differential::keep;
use crate::forms::{ALL, NARROW, WIDE};
use crate::interface::engines;
use crate::plain::table::{Groups, Settings};
use crate::together::Fault;
use crate::trace::number;

/// The largest value of a sweep unless told otherwise, in milliseconds.
const MOST: u64 = 3000;

/// `sweep [MOST]`, `settings [every]`, or, by itself or after `most`, what is played, as words `name=value`.
pub fn run(words: &[String]) -> Result<bool, String> {
    let words: Vec<&str> = words.iter().map(String::as_str).collect();
    let names: Vec<_> = engines().iter().map(|engine| engine.name()).collect();
    println!("delay: every frame arrives, late; engines: {}", names.join(", "));
    let played = match words[..] {
        ["sweep"] => sweep(MOST),
        ["sweep", most] => sweep(number(most)?),
        ["settings"] => settings(Step::Alike),
        ["settings", "every"] => settings(Step::Every),
        ["most", ref words @ ..] => most(&plan(words)?),
        _ => one(&plan(&words)?),
    };
    match played {
        Ok(()) => Ok(true),
        Err(fault) => {
            println!("{}", fault.what);
            keep(&fault);
            Ok(false)
        }
    }
}

/// What the words say is played: two of ours, A starting and no delay, unless they say otherwise.
fn plan(words: &[&str]) -> Result<Plan, String> {
    let mut plan = Plan::ours(0);
    let (mut back, mut answer, mut asks, mut later) = (None, None, None, 0);
    for word in words {
        match word.split_once('=') {
            Some(("there", ms)) => plan.takes[0] = number(ms)?,
            Some(("back", ms)) => back = Some(number(ms)?),
            Some(("chip", ms)) => plan.chip = [number(ms)?; 2],
            Some(("starts", "a")) => plan.starts = [Some(0), None],
            Some(("starts", "b")) => plan.starts = [None, Some(0)],
            Some(("starts", "both")) => plan.starts = BOTH,
            Some(("later", ms)) => later = number(ms)?,
            Some(("answer", ms)) => answer = Some(number(ms)?),
            Some(("asks", ms)) => asks = Some(number(ms)?),
            Some(("a", list)) => plan.groups[0] = groups(list)?,
            Some(("b", list)) => plan.groups[1] = groups(list)?,
            Some(("period", ms)) => plan.periods = [number(ms)?; 2],
            Some(("aperiod", ms)) => plan.periods[0] = number(ms)?,
            Some(("bperiod", ms)) => plan.periods[1] = number(ms)?,
            Some(("limit", most)) => plan.sync_limits = [number(most)?; 2],
            Some(("alimit", most)) => plan.sync_limits[0] = number(most)?,
            Some(("blimit", most)) => plan.sync_limits[1] = number(most)?,
            Some(("form", "wide")) => plan.forms = [&WIDE; 2],
            Some(("form", "narrow")) => plan.forms = [&NARROW; 2],
            Some(("form", "mixed")) => plan.forms = [&NARROW, &WIDE],
            Some(("token", "a")) => plan.asks_token = [true, false],
            Some(("token", "b")) => plan.asks_token = [false, true],
            Some(("token", "both")) => plan.asks_token = [true; 2],
            Some(("requests", "all")) => plan.filters_requests = false,
            Some(("requests", "new")) => plan.filters_requests = true,
            Some(("password", "same")) => plan.same_password = true,
            Some(("password", "other")) => plan.same_password = false,
            _ => return Err(format!("not a word of this program: {word}")),
        }
    }
    plan.takes[1] = back.unwrap_or(plan.takes[0]);
    plan.starts[1] = plan.starts[1].map(|start| start + later);
    // With an answer time B is the model of a mesh peer.
    if let Some(ms) = answer {
        (plan.makers, plan.chip[1]) = (WITH_MESH, ms);
    }
    // With a time to ask it is the access point that answers 76 to every Commit.
    if let Some(ms) = asks {
        (plan.makers, plan.chip[1]) = (WITH_ACCESS_POINT, ms);
    }
    if !(0..2).all(|who| plan.forms[who].lists().contains(&plan.groups[who])) {
        return Err("a list of groups that no table of its form can have".into());
    }
    if !(0..2).all(|who| plan.pace(who).is_some()) {
        return Err("a first period that is not 0 or 10 to 1000, or a Sync limit that is not 0 or 1 to 10".into());
    }
    Ok(plan)
}

/// The groups that a word lists, with commas between them.
fn groups(word: &str) -> Result<Groups, String> {
    let mut groups = Groups { count: 0, list: [0; 3] };
    for group in word.split(',') {
        let place = groups.list.get_mut(usize::from(groups.count)).ok_or("more than three groups")?;
        (*place, groups.count) = (number(group)?, groups.count + 1);
    }
    Ok(groups)
}

/// Prints a play and what it came to.
fn one(plan: &Plan) -> Result<(), Fault> {
    let outcome = play(plan, true)?;
    println!("{}:", Kind::of(&outcome).words());
    for (who, name) in NAMES.iter().enumerate() {
        let told = outcome.events[who].iter();
        let events: Vec<String> = told.map(|(at, event)| format!("event {event} ({}) at {at} ms", EVENTS[usize::from(*event)])).collect();
        let events = if events.is_empty() { "no event".into() } else { events.join(", ") };
        let link = match outcome.links[who] {
            Some(link) if link.marked => "a link, marked",
            Some(_) => "a link, not marked",
            None => "no link",
        };
        println!("  {name}: {events}; holds {link}");
    }
    match outcome.links {
        [Some(a), Some(b)] if a.pair == b.pair.exchanged() => println!("  the same pair at both ends"),
        [Some(_), Some(_)] => println!("  pairs that differ"),
        _ => {}
    }
    Ok(())
}

/// What a play came to, in one word.
#[derive(Clone, Copy, PartialEq)]
enum Kind {
    /// Both hold the same link, unmarked, and neither was told of an end.
    Linked,
    /// One holds a link at the end and the other none, or they differ.
    Apart,
    /// A link was finished, and neither holds one at the end.
    Ended,
    /// No link was ever finished.
    GivenUp,
    /// Runs begin anew from late frames for as long as it was played.
    Restless,
}

impl Kind {
    fn of(outcome: &Outcome) -> Kind {
        let any = |event: u8| outcome.events.iter().flatten().any(|&(_, told)| told == event);
        match outcome.links {
            _ if !outcome.rests => Kind::Restless,
            [Some(a), Some(b)] if a.pair == b.pair.exchanged() && !a.marked && !b.marked && !any(2) && !any(3) => Kind::Linked,
            [None, None] if any(1) => Kind::Ended,
            [None, None] => Kind::GivenUp,
            _ => Kind::Apart,
        }
    }

    fn words(self) -> &'static str {
        match self {
            Kind::Linked => "both linked",
            Kind::Apart => "one end linked",
            Kind::Ended => "linked, then not",
            Kind::GivenUp => "given up",
            Kind::Restless => "never at rest",
        }
    }
}

/// A row of plays that differ in one number of milliseconds.
struct Series {
    name: &'static str,
    /// What the number is.
    over: &'static str,
    plan: fn(u64) -> Plan,
}

const WITH_MESH: [Maker; 2] = [Maker::Ours, Maker::Mesh];
const WITH_ACCESS_POINT: [Maker; 2] = [Maker::Ours, Maker::AccessPoint];
const WITH_NOBODY: [Maker; 2] = [Maker::Ours, Maker::Nobody];
const BOTH: [Option<u64>; 2] = [Some(0); 2];

const SERIES: [Series; 13] = [
    Series { name: "one starts", over: "delay", plan: Plan::ours },
    Series { name: "both start", over: "delay", plan: |ms| Plan { starts: BOTH, ..Plan::ours(ms) } },
    Series {
        name: "one starts, the other asks for a token",
        over: "delay",
        plan: |ms| Plan { asks_token: [false, true], ..Plan::ours(ms) },
    },
    Series {
        name: "one starts, the other asks for a token, hosts filter 76s",
        over: "delay",
        plan: |ms| Plan { asks_token: [false, true], filters_requests: true, ..Plan::ours(ms) },
    },
    Series { name: "one starts", over: "chip time", plan: |ms| Plan { chip: [ms; 2], ..Plan::ours(0) } },
    Series { name: "both start", over: "chip time", plan: |ms| Plan { chip: [ms; 2], starts: BOTH, ..Plan::ours(0) } },
    Series { name: "ours starts, a mesh peer answers", over: "answer time", plan: |ms| with_mesh([Some(0), None], ms) },
    Series { name: "a mesh peer starts, ours answers", over: "answer time", plan: |ms| with_mesh([None, Some(0)], ms) },
    Series {
        name: "ours starts, an access point answers 76 to every Commit",
        over: "answer time",
        plan: |ms| Plan { chip: [0, ms], makers: WITH_ACCESS_POINT, ..Plan::ours(0) },
    },
    Series { name: "one starts, other password", over: "delay", plan: |ms| Plan { same_password: false, ..Plan::ours(ms) } },
    Series { name: "both start, other password", over: "delay", plan: |ms| Plan { same_password: false, starts: BOTH, ..Plan::ours(ms) } },
    Series {
        name: "one starts in group 21, which the other lacks",
        over: "delay",
        plan: |ms| Plan { groups: [THREE, Settings::factory().groups], ..Plan::ours(ms) },
    },
    Series {
        name: "both start, one in group 21 and one in 19",
        over: "delay",
        plan: |ms| Plan { groups: [THREE, ALL], starts: BOTH, ..Plan::ours(ms) },
    },
];

/// The three groups, the longest first.
const THREE: Groups = Groups { count: 3, list: [21, 20, 19] };

/// A is ours, B the model of a mesh peer that does what it does so long after a frame.
fn with_mesh(starts: [Option<u64>; 2], answer: u64) -> Plan {
    Plan { chip: [0, answer], starts, makers: WITH_MESH, ..Plan::ours(0) }
}

/// Prints the outcome against milliseconds, each from 0 to `most`, as a table.
fn sweep(most: u64) -> Result<(), Fault> {
    println!("every millisecond from 0 to {most}; a play is left after {} s", LAST / 1000);
    println!("events are told in order; one that comes several times in a row, once");
    println!("\n| Play | Over | From | To | Outcome | Events at A | at B | Links |\n|---|---|---:|---:|---|---|---|---|");
    let mut limits = Vec::new();
    for series in &SERIES {
        let mut begun: Option<(u64, String)> = None;
        let mut linked = Vec::new();
        for ms in 0..=most {
            let outcome = play(&(series.plan)(ms), false)?;
            if Kind::of(&outcome) == Kind::Linked {
                linked.push(ms);
            }
            let row = row(&outcome);
            if let Some((from, before)) = begun.take_if(|(_, before)| *before != row) {
                println!("| {} | {} | {from} | {} | {before} |", series.name, series.over, ms - 1);
            }
            begun.get_or_insert((ms, row));
        }
        let (from, row) = begun.expect("a first row");
        println!("| {} | {} | {from} | {most} | {row} |", series.name, series.over);
        limits.push(format!("  {}, {}: {}", series.name, series.over, limit(&linked, most)));
    }
    println!("\nwhere both are linked and stay so:\n{}", limits.join("\n"));
    Ok(())
}

/// The first periods and the Sync limits of the table that `settings` prints.
const PERIODS: [u16; 5] = [10, 40, 100, 250, 1000];
const SYNC_LIMITS: [u8; 3] = [1, 5, 10];

/// Prints, for each period and limit, up to which delay both are linked and stay so, and how long a start waits that nobody answers.
fn settings(step: Step) -> Result<(), Fault> {
    println!("the largest delay up to which, from 0 on, both are linked with clear marks and stay so, and the silence until giving up; ms");
    println!("{}", step.words());
    println!("\n| Period | Sync limit | One starts | Both start | Given up after |\n|---:|---:|---:|---:|---:|");
    for period in PERIODS {
        for sync_limit in SYNC_LIMITS {
            let plan = Plan { periods: [period; 2], sync_limits: [sync_limit; 2], ..Plan::ours(0) };
            let (one, _) = last_linked(&plan, step)?;
            let (both, _) = last_linked(&Plan { starts: BOTH, ..plan }, step)?;
            println!("| {period} | {sync_limit} | {one} | {both} | {} |", silence(&plan)?);
        }
    }
    Ok(())
}

/// Prints up to which delay a play links both, and what it comes to one millisecond above that.
fn most(plan: &Plan) -> Result<(), Fault> {
    let (last, above) = last_linked(plan, Step::Alike)?;
    let [a, b] = [0, 1].map(|who| format!("period {}, Sync limit {}", plan.periods[who], plan.sync_limits[who]));
    println!("{}", Step::Alike.words());
    println!("A: {a}; B: {b}");
    println!("both linked with clear marks, and it stays so, up to a delay of {last} ms; one millisecond above:");
    println!("\n| Outcome | Events at A | at B | Links |\n|---|---|---|---|\n| {} |", row(&above));
    Ok(())
}

/// Which delays are played.
#[derive(Clone, Copy)]
enum Step {
    Every,
    /// Those at which the order of what happens changes: between two of them the same happens at each millisecond.
    Alike,
}

impl Step {
    fn words(self) -> &'static str {
        match self {
            Step::Every => "every millisecond of delay is played",
            Step::Alike => "a delay is played where the order of what happens differs from that with a millisecond less",
        }
    }
}

/// The largest delay up to which every delay, from 0 on, links both; and what the next one comes to.
fn last_linked(plan: &Plan, step: Step) -> Result<(String, Outcome), Fault> {
    let mut delay = 0;
    loop {
        let outcome = play(&Plan { takes: [delay; 2], ..*plan }, false)?;
        if Kind::of(&outcome) != Kind::Linked {
            return Ok((delay.checked_sub(1).map_or("none".into(), |last: u64| last.to_string()), outcome));
        }
        delay += match step {
            Step::Every => 1,
            Step::Alike => outcome.alike.checked_add(1).expect("some longer delay changes the order"),
        };
    }
}

/// Milliseconds from a start that nobody answers to event 2, the clock served as each deadline falls.
fn silence(plan: &Plan) -> Result<u64, Fault> {
    let outcome = play(&Plan { makers: WITH_NOBODY, ..*plan }, false)?;
    Ok(outcome.events[0].iter().find(|(_, event)| *event == 2).map_or(0, |(at, _)| *at))
}

/// The outcome, the events at each end and who holds a link, as cells of a row.
fn row(outcome: &Outcome) -> String {
    let events = outcome.events.each_ref().map(|told| {
        let mut events: Vec<String> = told.iter().map(|(_, event)| event.to_string()).collect();
        events.dedup();
        events.join(" ")
    });
    let links = match outcome.links {
        [Some(a), Some(b)] if a.pair == b.pair.exchanged() => "both, the same",
        [Some(_), Some(_)] => "both, unlike",
        [Some(a), None] if a.marked => "A alone, marked",
        [Some(_), None] => "A alone",
        [None, Some(b)] if b.marked => "B alone, marked",
        [None, Some(_)] => "B alone",
        [None, None] => "none",
    };
    format!("{} | {} | {} | {links}", Kind::of(outcome).words(), events[0], events[1])
}

/// Where the values that link lie.
fn limit(linked: &[u64], most: u64) -> String {
    let (Some(first), Some(last)) = (linked.first(), linked.last()) else { return "nowhere".into() };
    match (last - first + 1 == linked.len() as u64, *last == most) {
        (true, true) => format!("from {first} to {last} ms, the end of the sweep"),
        (true, false) => format!("from {first} to {last} ms, and nowhere from {} to {most} ms", last + 1),
        (false, _) => format!("at {} values from {first} to {last} ms, with gaps", linked.len()),
    }
}
