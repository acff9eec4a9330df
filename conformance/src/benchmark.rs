//! Times of the calls, the archive's engine against the plain one, in one run and by turns.

use std::hint::black_box;
use std::time::{Duration, Instant};

use crate::forms::{recount, Layout, ALL, NARROW, WIDE};
use crate::interface::{engines, Call, Engine, Lent};
use crate::moves::right_move;
use crate::plain::frame::{commit_len, TOKEN_REQUIRED};
use crate::plain::octets::{put16, put32, Address};
use crate::plain::peer::at;
use crate::plain::table::{Groups, Settings, GOOD_AT, HEADER};
use crate::random::Random;

/// How often each engine is timed in each row.
const SAMPLES: usize = 401;
/// How long one sample lasts, at least.
const SAMPLE: Duration = Duration::from_micros(40);

const OWN: Address = [2, 0, 0, 0, 0, 0x80];
const NOW: u32 = 1_000_000;

/// The form of a row's table and the groups that it lists.
#[derive(Clone, Copy)]
struct Kind {
    form: &'static Layout,
    groups: Groups,
}

/// A row: a call on a table, and the number that it returns.
struct Row {
    name: String,
    slots: usize,
    table: Vec<u8>,
    call: Call,
    number: u32,
}

/// Prints the table of times.
pub fn run() -> Result<bool, String> {
    let engines = engines();
    println!("Nanoseconds a call: median of {SAMPLES} samples, by turns in one run (quartiles). Ratio: median of the samples' ratios.\n");
    match engines[..] {
        [_, _] => println!("| Call | Slots | Plain Rust | Engine | Ratio |\n|---|---:|---:|---:|---:|"),
        _ => println!("The archive is not linked.\n\n| Call | Slots | Plain Rust |\n|---|---:|---:|"),
    }
    let two = Settings::factory().groups;
    for form in [&NARROW, &WIDE] {
        measure_all(&engines, form, |slots| rows(Kind { form, groups: two }, slots))?;
    }
    measure_all(&engines, &WIDE, |slots| rows_of_three(Kind { form: &WIDE, groups: ALL }, slots))?;
    measure_all(&engines, &WIDE, |slots| rows_of_moves(two, slots))?;
    Ok(true)
}

/// Prints these rows, each for a table of one slot, of eight and of as many as its form has.
fn measure_all(engines: &[&dyn Engine], form: &Layout, rows: impl Fn(usize) -> Vec<Row>) -> Result<(), String> {
    let rows = [1, 8, form.slots].map(rows);
    for row in (0..rows[0].len()).flat_map(|name| rows.iter().map(move |rows| &rows[name])) {
        measure(engines, row)?;
    }
    Ok(())
}

/// Prints one row.
fn measure(engines: &[&dyn Engine], row: &Row) -> Result<(), String> {
    let slots = row.slots;
    let mut samples: Vec<Vec<f64>> = vec![Vec::new(); engines.len()];
    let mut batch = Batch::new(engines, row)?;
    for round in 0..SAMPLES {
        for turn in 0..engines.len() {
            let place = (round + turn) % engines.len();
            samples[place].push(batch.time(engines[place], row));
        }
    }
    let ratios: Vec<f64> = samples.last().into_iter().flatten().zip(&samples[0]).map(|(engine, plain)| engine / plain).collect();
    let times: Vec<String> = samples.into_iter().map(|times| spread(times, 0)).collect();
    match engines.len() {
        2 => println!("| {} | {slots} | {} | {} | {} |", row.name, times[0], times[1], spread(ratios, 2)),
        _ => println!("| {} | {slots} | {} |", row.name, times[0]),
    }
    Ok(())
}

/// Median and quartiles.
fn spread(mut values: Vec<f64>, digits: usize) -> String {
    values.sort_by(f64::total_cmp);
    let at = |part: usize| values[values.len() * part / 4];
    format!("{:.digits$} ({:.digits$}–{:.digits$})", at(2), at(1), at(3))
}

/// Copies of a row's table, so that each call of a sample finds it as it was. The engines work on the same ones by turns: where a
/// table lies in memory tells in its time.
struct Batch {
    tables: Vec<Vec<u8>>,
    calls: usize,
    changes: bool,
}

impl Batch {
    fn new(engines: &[&dyn Engine], row: &Row) -> Result<Batch, String> {
        let mut changes = false;
        for engine in engines {
            let mut table = row.table.clone();
            let number = row.call.make(*engine, &mut table, &mut Lent::for_call(&row.call));
            if number != row.number {
                return Err(format!("{}, {}: returned {number}, not {}", row.name, engine.name(), row.number));
            }
            changes |= table != row.table;
        }
        let copies = if changes { (256 * 1024 / row.table.len()).clamp(4, 64) } else { 1 };
        let mut batch = Batch { tables: vec![row.table.clone(); copies], calls: copies, changes };
        let once = batch.time(engines[0], row);
        if !changes {
            batch.calls = (SAMPLE.as_nanos() as f64 / once).ceil().clamp(4.0, 10_000.0) as usize;
        }
        Ok(batch)
    }

    /// Nanoseconds a call, over one sample.
    fn time(&mut self, engine: &dyn Engine, row: &Row) -> f64 {
        if self.changes {
            self.tables.iter_mut().for_each(|table| table.copy_from_slice(&row.table));
        }
        let mut lent = Lent::for_call(&row.call);
        let call = black_box(&row.call);
        let copies = self.tables.len();
        let start = Instant::now();
        for place in 0..self.calls {
            black_box(call.make(engine, &mut self.tables[place % copies], black_box(&mut lent)));
        }
        start.elapsed().as_nanos() as f64 / self.calls as f64
    }
}

/// How many elements stand behind the Confirm of one row.
const ELEMENTS: usize = 64;

/// The rows of both forms. The narrow form's have the names that they had when it was the only one.
fn rows(kind: Kind, slots: usize) -> Vec<Row> {
    let mut random = Random::new(7);
    let fresh = fresh(&mut random, kind);
    let full = table(&mut random, kind, slots, slots);
    let one_free = table(&mut random, kind, slots, slots - 1);
    let empty = kind.form.fresh_table(slots, &OWN, &settings(kind, Settings::THRESHOLD));
    let (last, stranger) = (address(slots - 1), address(99));
    let mut confirmed = full.clone();
    record(&mut random, kind, &mut confirmed, slots - 1, Holds::Confirmed);
    let mut late = full.clone();
    record(&mut random, kind, &mut late, slots - 1, Holds::Committed);
    put32(&mut late, kind.form.length(slots - 1) + at::T0, NOW - 1);
    let mut unfilled = full.clone();
    put16(&mut unfilled, GOOD_AT, 0);
    let commit = frame(1, 19, &random.octets(commit_len(19)));
    let confirm = frame(2, 1, &random.octets(32));
    let followed = [confirm.clone(), [221, 15].into_iter().chain([7; 15]).collect::<Vec<u8>>().repeat(ELEMENTS)].concat();
    let mut request = frame(1, group(kind, slots - 1), &[9; 32]);
    request[4] = TOKEN_REQUIRED as u8;
    let receive = |address, frame: &[u8], verified| receive(address, frame, &fresh, verified);
    let row = |name: &str, table: &[u8], call, number| {
        let name = if *kind.form == NARROW { name.into() } else { format!("{name}, wide") };
        Row { name, slots, table: table.to_vec(), call, number }
    };
    vec![
        row("sound: kill of the own address, refused 3", &full, Call::Kill { address: OWN }, 3),
        row("the same, every slot free", &empty, Call::Kill { address: OWN }, 3),
        row("read: a Commit", &full, Call::Read { frame: commit.clone() }, 0),
        row("read: a Confirm", &full, Call::Read { frame: confirm.clone() }, 0),
        row("read: a Confirm and 64 elements", &full, Call::Read { frame: followed }, 0),
        row("expire: none due", &full, Call::Expire { now: NOW }, 0),
        row("expire: a Commit again", &late, Call::Expire { now: NOW }, 0),
        row("initiate: a new peer", &one_free, Call::Initiate { address: stranger, now: NOW, fresh: fresh.clone() }, 0),
        row("receive: a Commit, pair formed", &one_free, receive(stranger, &commit, 1), 0),
        row("receive: a 76, a Commit again", &late, receive(last, &request, 0), 0),
        row("receive: a Confirm, dropped", &confirmed, receive(last, &confirm, 0), 0),
        row("receive: a Confirm, accepted", &confirmed, receive(last, &confirm, 1), 0),
        row("write_record: a Commit", &late, Call::WriteRecord { address: last, sequence: 1, value: vec![], room: 500 }, 0),
        row("next_deadline: none due", &full, Call::NextDeadline { now: NOW }, 0),
        row("find: the last slot's address", &full, Call::Find { address: last }, 0),
        row("good_links: the panel's question", &full, Call::GoodLinks { header: full[..HEADER].to_vec() }, 0),
        row("fill: a table of before", &unfilled, Call::Fill, 0),
    ]
}

/// A Commit in each longer group, in tables that list three.
fn rows_of_three(kind: Kind, slots: usize) -> Vec<Row> {
    let mut random = Random::new(7);
    let fresh = fresh(&mut random, kind);
    let table = table(&mut random, kind, slots, slots - 1);
    let mut row = |group| {
        let commit = frame(1, group, &random.octets(commit_len(group)));
        let name = format!("receive: a Commit in group {group}, pair formed, wide");
        Row { name, slots, table: table.clone(), call: receive(address(99), &commit, &fresh, 1), number: 0 }
    };
    vec![row(20), row(21)]
}

/// Both moves of a table with links and runs in every slot.
fn rows_of_moves(groups: Groups, slots: usize) -> Vec<Row> {
    let row = |name: &str, form| {
        let table = table(&mut Random::new(7), Kind { form, groups }, slots, slots);
        Row { name: name.into(), slots, call: right_move(&table, 0), table, number: 0 }
    };
    vec![row("widen: every slot in use", &NARROW), row("narrow: every slot in use", &WIDE)]
}

fn receive(address: Address, frame: &[u8], fresh: &[u8], verified: u8) -> Call {
    Call::Receive { address, now: NOW, frame: frame.to_vec(), fresh: fresh.to_vec(), expected: vec![5; 32], verified }
}

fn address(slot: usize) -> Address {
    [2, 0, 0, 0, 1, slot as u8]
}

/// The group of what a slot has.
fn group(kind: Kind, slot: usize) -> u16 {
    let listed = kind.groups.listed();
    listed[slot / 4 % listed.len()]
}

fn fresh(random: &mut Random, kind: Kind) -> Vec<u8> {
    let part = |&group: &u16| {
        let mut part = random.octets(commit_len(group));
        part.resize(kind.form.commit, 0);
        part
    };
    kind.groups.listed().iter().flat_map(part).collect()
}

fn frame(sequence: u16, field: u16, rest: &[u8]) -> Vec<u8> {
    let mut frame = vec![3, 0, sequence as u8, 0, 0, 0];
    frame.extend(field.to_le_bytes());
    frame.extend(rest);
    frame
}

/// Settings of a row's table. A wide one has period and Sync limit as factory settings store them; a narrow one, as a host still
/// holds it from before there were any, has zeros there.
fn settings(kind: Kind, threshold: u16) -> Settings {
    let settings = Settings { groups: kind.groups, threshold, ..Settings::factory() };
    match *kind.form == NARROW {
        true => Settings { period: 0, sync_limit: 0, ..settings },
        false => settings,
    }
}

/// What a record holds.
enum Holds {
    Committed,
    Confirmed,
    Linked,
    Both,
}

/// A table with so many records, of all kinds in turn, in its last slots; threshold 64, nothing due.
fn table(random: &mut Random, kind: Kind, slots: usize, in_use: usize) -> Vec<u8> {
    let mut table = kind.form.fresh_table(slots, &OWN, &settings(kind, 64));
    for slot in slots - in_use..slots {
        let holds = [Holds::Committed, Holds::Confirmed, Holds::Linked, Holds::Both].into_iter().nth(slot % 4).expect("four kinds");
        record(random, kind, &mut table, slot, holds);
    }
    table
}

fn record(random: &mut Random, kind: Kind, table: &mut [u8], slot: usize, holds: Holds) {
    let (form, group) = (kind.form, group(kind, slot));
    let octets = &mut table[form.length(slot)..form.length(slot + 1)];
    octets.fill(0);
    octets[at::IN_USE] = 1;
    octets[at::ADDRESS..at::STATE].copy_from_slice(&address(slot));
    let mut commit = |octets: &mut [u8], at: usize| random.fill(&mut octets[at..][..commit_len(group)]);
    if !matches!(holds, Holds::Linked) {
        octets[at::STATE] = 1;
        put16(octets, at::GROUP, group);
        put32(octets, at::T0, NOW + 500);
        commit(octets, at::OWN);
    }
    if matches!(holds, Holds::Confirmed | Holds::Both) {
        octets[at::STATE] = 2;
        put16(octets, at::SC, 1);
        commit(octets, form.peer);
    }
    if matches!(holds, Holds::Linked | Holds::Both) {
        octets[form.link] = 1;
        put16(octets, form.link_group, group);
        put16(octets, form.rc, 1);
        put32(octets, form.t1, NOW + 80_000_000);
        commit(octets, form.link_own);
        commit(octets, form.link_peer);
    }
    recount(table);
}
