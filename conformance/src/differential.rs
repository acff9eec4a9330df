//! Random and damaged inputs: every engine there is makes the same calls, and all that they return and leave is compared.

use std::collections::BTreeMap;
use std::fs;
use std::path::Path;

use crate::faults::{fault, miscount, scratch};
use crate::forms::{Layout, FORMS, NARROW, WIDE};
use crate::inputs::{slots, Pool, SHARED};
use crate::interface::{engines, Call, Counts};
use crate::lists;
use crate::moves;
use crate::panel;
use crate::plain::octets::put16;
use crate::plain::table::{GOOD_AT, HEADER};
use crate::random::Random;
use crate::report::difference;
use crate::together::{Fault, Known, Together};
use crate::trace::{call_line, shorten};

/// Where the lines that make a difference again are left.
const KEPT: &str = "target/difference.txt";

/// Makes about so many calls. Answers whether there was no difference.
pub fn run(calls: u64, seed: u64) -> Result<bool, String> {
    let names: Vec<_> = engines().iter().map(|engine| engine.name()).collect();
    println!("differential: {calls} calls, seed {seed}, engines: {}", names.join(", "));
    if names.len() < 2 {
        println!("  the archive is not linked: only what holds of each engine alone is checked");
    }
    let mut trial = Trial {
        random: Random::new(seed),
        counts: Counts::default(),
        faults: BTreeMap::new(),
        miscounts: BTreeMap::new(),
        beside: 0,
        back: 0,
        lists: lists::Tally::default(),
    };
    while trial.counts.total() < calls {
        if let Err(fault) = trial.round() {
            println!("after {} calls: {}", trial.counts.total(), fault.what);
            keep(&fault);
            return Ok(false);
        }
    }
    println!("{} calls, no difference:", trial.counts.total());
    trial.counts.print();
    let faults: u64 = trial.faults.values().sum();
    println!("  {faults} tables with one fault, of {} kinds, each refused 2", trial.faults.len());
    let miscounts: u64 = trial.miscounts.values().sum();
    println!("  {miscounts} tables with another number of good links than they have, each refused 2 until it was filled");
    println!(
        "  {} further calls on a table and on the same moved, with the same answers and contents; moved back {} times, to the same octets",
        trial.beside, trial.back
    );
    trial.lists.print();
    Ok(true)
}

/// Leaves the lines of a fault for the replay.
pub fn keep(fault: &Fault) {
    if fault.trace.is_empty() {
        return;
    }
    let file = Path::new(env!("CARGO_MANIFEST_DIR")).join(KEPT);
    let kept = file.parent().map_or(Ok(()), fs::create_dir_all).and_then(|()| fs::write(&file, &fault.trace));
    match kept {
        Ok(()) => println!("  `conformance replay {}` makes it again", file.display()),
        Err(error) => println!("  {}: {error}", file.display()),
    }
}

struct Trial {
    random: Random,
    counts: Counts,
    faults: BTreeMap<&'static str, u64>,
    miscounts: BTreeMap<&'static str, u64>,
    /// Calls that were made on a table and on the same moved, and how often the moved one was moved back.
    beside: u64,
    back: u64,
    lists: lists::Tally,
}

impl Trial {
    fn round(&mut self) -> Result<(), Fault> {
        match self.random.below(100) {
            0..=24 => self.after_set_up(),
            25..=51 => self.on_sound(),
            52..=78 => self.on_faults(),
            79..=82 => self.on_anything(),
            83..=85 => self.set_ups(),
            86..=87 => self.of_headers(),
            88..=89 => self.fills(),
            90..=91 => self.moves(),
            92..=95 => self.moved_beside(),
            _ => self.two_printers(),
        }
    }

    /// A table from set up, and a list of calls.
    fn after_set_up(&mut self) -> Result<(), Fault> {
        let mut pool = Pool::of(&mut self.random, &WIDE);
        let slots = slots(&mut self.random, &WIDE);
        let mut together = Together::new(&vec![self.random.octet(); WIDE.length(slots)], Known::Nothing);
        let damage = std::mem::take(&mut pool.damage);
        let initialize = pool.initialize(&mut self.random);
        self.call(&mut together, &initialize)?;
        pool.damage = damage;
        for _ in 0..self.random.within(5, 120) {
            self.any_call(&mut pool, &mut together)?;
        }
        Ok(())
    }

    /// A table of the form with anything in it, and some calls.
    fn on_sound(&mut self) -> Result<(), Fault> {
        let mut pool = Pool::new(&mut self.random);
        let slots = slots(&mut self.random, pool.form);
        let mut together = Together::new(&[], Known::Nothing);
        for _ in 0..4 {
            let (table, known) = self.counted(&pool, slots);
            together.set(&table, known);
            for _ in 0..self.random.within(1, 12) {
                self.any_call(&mut pool, &mut together)?;
            }
        }
        Ok(())
    }

    /// A table of the form; now and then its number of good links is another.
    fn counted(&mut self, pool: &Pool, slots: usize) -> (Vec<u8>, Known) {
        let mut table = pool.sound_table(&mut self.random, slots);
        if self.random.percent(95) {
            return (table, Known::Sound);
        }
        *self.miscounts.entry(miscount(&mut self.random, &mut table)).or_default() += 1;
        (table, Known::Unfilled)
    }

    /// A table of the form, with one fault after the other.
    fn on_faults(&mut self) -> Result<(), Fault> {
        let pool = Pool::new(&mut self.random);
        let slots = slots(&mut self.random, pool.form);
        let sound = pool.sound_table(&mut self.random, slots);
        let mut together = Together::new(&[], Known::Nothing);
        for _ in 0..self.random.within(5, 30) {
            let (table, known) = self.damaged(&sound);
            together.set(&table, known);
            let call = match self.random.below(20) {
                0..=1 => Call::Fill,
                2 => pool.some_move(&mut self.random, &table),
                _ => pool.call(&mut self.random, &table),
            };
            self.call(&mut together, &call)?;
        }
        Ok(())
    }

    /// A copy of a sound table with one fault that is surely one, if there is a place for it, or with octets changed anywhere.
    fn damaged(&mut self, sound: &[u8]) -> (Vec<u8>, Known) {
        let mut table = sound.to_vec();
        if self.random.percent(30) {
            scratch(&mut self.random, &mut table);
            return (table, Known::Nothing);
        }
        let Some(what) = fault(&mut self.random, &mut table) else { return (table, Known::Sound) };
        *self.faults.entry(what).or_default() += 1;
        // Its number of good links may be wrong too.
        if self.random.percent(20) && table.len() >= HEADER {
            put16(&mut table, GOOD_AT, self.random.below(4) as u16);
        }
        (table, Known::Unsound)
    }

    /// Tables of all kinds and their moves, right and wrong ones: also such with more slots than the wide form has.
    fn moves(&mut self) -> Result<(), Fault> {
        let pool = Pool::new(&mut self.random);
        let mut together = Together::new(&[], Known::Nothing);
        for _ in 0..self.random.within(2, 10) {
            let many = self.random.percent(20);
            let slots = if many { self.random.within(58, pool.form.slots) } else { slots(&mut self.random, pool.form) };
            let (mut table, mut known) = self.counted(&pool, slots);
            if known == Known::Sound && self.random.percent(20) {
                (table, known) = self.damaged(&table);
            }
            together.set(&table, known);
            for _ in 0..self.random.within(1, 4) {
                let call = pool.some_move(&mut self.random, together.table());
                self.call(&mut together, &call)?;
            }
        }
        Ok(())
    }

    /// "After either move, any further calls but set up and moves … get the answers that the unmoved table would have given to the same
    /// stocks in its own length."
    fn moved_beside(&mut self) -> Result<(), Fault> {
        let form = *self.random.pick(&FORMS);
        let mut pool = Pool::of(&mut self.random, form);
        pool.groups = *self.random.pick(NARROW.lists());
        let slots = slots(&mut self.random, form).min(WIDE.slots);
        let table = pool.sound_table(&mut self.random, slots);
        let mut stays = Together::new(&table, Known::Sound);
        let mut moved = Together::new(&table, Known::Sound);
        self.right_move(&mut moved)?;
        for _ in 0..self.random.within(5, 60) {
            let call = self.further(&pool, stays.table());
            self.call_both(&mut stays, &mut moved, &call)?;
            if self.random.percent(5) {
                self.there_and_back(&stays, &mut moved)?;
            }
        }
        Ok(())
    }

    /// A call that is neither a set up nor a move; the panel's question is asked of the table's own header.
    fn further(&mut self, pool: &Pool, table: &[u8]) -> Call {
        loop {
            match pool.call(&mut self.random, table) {
                Call::Initialize { .. } | Call::Widen { .. } | Call::Narrow { .. } => {}
                Call::GoodLinks { .. } => return Call::GoodLinks { header: panel::header(table).to_vec() },
                call => return call,
            }
        }
    }

    /// The same call on a table and on the same moved: numbers, what was written and the tables' contents agree.
    fn call_both(&mut self, stays: &mut Together, moved: &mut Together, call: &Call) -> Result<(), Fault> {
        let twin = moves::twin(call, stays.table(), moved.table());
        let (number, lent) = stays.call(call, &mut self.counts)?;
        let (moved_number, moved_lent) = moved.call(&twin, &mut self.counts)?;
        self.beside += 1;
        let unmoved = match moved_number {
            0 => moves::lent_unmoved(call, stays.table(), moved.table(), &moved_lent),
            _ => moved_lent.clone(),
        };
        let told = difference((moved_number, &unmoved, &[]), (number, &lent, &[]));
        match told.or_else(|| moves::unlike(stays.table(), moved.table())) {
            None => Ok(()),
            Some(what) => Err(Fault {
                what: format!("the moved table differs from the one that was not moved\n  {}\n{what}", shorten(&call_line(call))),
                trace: format!(
                    "# the table that was not moved\n{}# the moved one\n{}",
                    stays.lines(call, (number, &lent)),
                    moved.lines(&twin, (moved_number, &moved_lent))
                ),
            }),
        }
    }

    /// Moves the moved table back, to the octets of the one that was not moved, and there again.
    fn there_and_back(&mut self, stays: &Together, moved: &mut Together) -> Result<(), Fault> {
        self.right_move(moved)?;
        self.back += 1;
        if moved.table() != stays.table() {
            return Err(Fault { what: "the table moved back differs from the one that was not moved".into(), trace: String::new() });
        }
        self.right_move(moved)
    }

    fn right_move(&mut self, together: &mut Together) -> Result<(), Fault> {
        let call = moves::right_move(together.table(), self.random.octet());
        self.call(together, &call)
    }

    /// The panel's question, of headers of all kinds.
    fn of_headers(&mut self) -> Result<(), Fault> {
        let pool = Pool::new(&mut self.random);
        let slots = slots(&mut self.random, pool.form);
        let mut together = Together::new(&pool.sound_table(&mut self.random, slots), Known::Sound);
        for _ in 0..self.random.within(5, 40) {
            let header = pool.header(&mut self.random, together.table());
            self.call(&mut together, &Call::GoodLinks { header })?;
        }
        Ok(())
    }

    /// A table whose number of good links is another: a call of any kind, then fill, which makes it sound, and further calls.
    fn fills(&mut self) -> Result<(), Fault> {
        let pool = Pool::new(&mut self.random).with_damage(0);
        let slots = slots(&mut self.random, pool.form);
        let mut together = Together::new(&[], Known::Nothing);
        for _ in 0..self.random.within(1, 10) {
            let mut table = pool.sound_table(&mut self.random, slots);
            *self.miscounts.entry(miscount(&mut self.random, &mut table)).or_default() += 1;
            together.set(&table, Known::Unfilled);
            let call = pool.call(&mut self.random, &table);
            self.call(&mut together, &call)?;
            self.call(&mut together, &Call::Fill)?;
            let call = pool.call(&mut self.random, together.table());
            self.call(&mut together, &call)?;
        }
        Ok(())
    }

    /// A buffer of any length and content.
    fn on_anything(&mut self) -> Result<(), Fault> {
        let pool = Pool::new(&mut self.random).with_damage(30);
        let length = match self.random.below(4) {
            0 => self.random.below(40),
            1 => pool.form.length(self.random.below(6)),
            2 => self.random.below(3000),
            _ => pool.form.length(1) + self.random.below(3) - 1,
        };
        let mut table = self.random.octets(length);
        if self.random.percent(50) && length >= HEADER {
            let sound = pool.sound_table(&mut self.random, 1);
            table[..HEADER].copy_from_slice(&sound[..HEADER]);
            put16(&mut table, 0, (length / pool.form.record) as u16);
        }
        let mut together = Together::new(&table, Known::Nothing);
        for _ in 0..self.random.within(1, 4) {
            let call = pool.call(&mut self.random, together.table());
            self.call(&mut together, &call)?;
        }
        Ok(())
    }

    /// Set up with right and wrong settings, and buffers of right and wrong lengths.
    fn set_ups(&mut self) -> Result<(), Fault> {
        let mut together = Together::new(&[], Known::Nothing);
        for _ in 0..self.random.within(1, 10) {
            let pool = Pool::new(&mut self.random).with_damage(50);
            let [narrow, right] = FORMS.map(|form| form.length(slots(&mut self.random, form)));
            let most = WIDE.length(WIDE.slots);
            let wrong = [right - 1, right + 1, narrow, HEADER + SHARED, 0, 31, HEADER, most, most + WIDE.record];
            let length = if self.random.percent(40) { right } else { *self.random.pick(&wrong) };
            together.set(&vec![self.random.octet(); length], Known::Nothing);
            let call = pool.initialize(&mut self.random);
            self.call(&mut together, &call)?;
        }
        Ok(())
    }

    /// Two printers and an air, in a list of calls that keeps demand 3's premises, or not.
    fn two_printers(&mut self) -> Result<(), Fault> {
        let honest = self.random.percent(50);
        let calls = self.random.within(50, 600);
        lists::play(&mut self.random, honest, calls, &mut self.counts, &mut self.lists)
    }

    /// A call of any kind. The pool's fresh commits follow the form of the table, which a move and a set up may change.
    fn any_call(&mut self, pool: &mut Pool, together: &mut Together) -> Result<(), Fault> {
        let call = pool.call(&mut self.random, together.table());
        let (number, _) = together.call(&call, &mut self.counts)?;
        if number == 0 && (call.moves() || matches!(call, Call::Initialize { .. })) {
            pool.form = Layout::of(together.table()).unwrap_or(pool.form);
        }
        Ok(())
    }

    fn call(&mut self, together: &mut Together, call: &Call) -> Result<(), Fault> {
        together.call(call, &mut self.counts).map(|_| ())
    }
}
