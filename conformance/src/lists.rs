//! Long lists of calls at two printers, with an air that loses, repeats and reorders frames, and demand 3's checks on them.
//!
//! A list begins with a fresh table at each printer, of either form in any mix. A further set up makes a wide one; a move, which may come
//! between any two calls, makes one of the other form, with all that the table holds. First period and Sync limit are each printer's own,
//! and each set up draws them anew.
//!
//! A list is honest if it keeps demand 3's premises: no commit is used twice, from the other printer comes only what it sent to
//! this one, and a Confirm from it that meets a pair gets verdict 1 only if the other made it over that same pair. Then (b) and
//! (c) are checked; (a) and (d) are checked on every list, and so is that the panel's question, asked of the table's header after every
//! call, answers the number of clear links that the answers said.

use crate::forms::{groups_of, pace_of, records, Layout, Seen, ALL, FORMS, LISTS, NARROW, WIDE};
use crate::history::{Answer, History, Pair, Sent};
use crate::inputs::{other_parts, period, slots, sync_limit, Pool};
use crate::interface::{engines, Call, Counts, Engine, Lent};
use crate::panel;
use crate::plain::frame::{self, commit_len, Body, COMMIT as COMMIT_FRAME, CONFIRM, SUCCESS, TOKEN_REQUIRED, VALUE};
use crate::plain::octets::{get16, put16, Address};
use crate::plain::rules::LINK_COUNTER;
use crate::plain::table::{Groups, Pace, Settings, GOOD_AT};
use crate::random::Random;
use crate::together::{Fault, Known, Together};
use crate::trace::{call_line, expected_lines, hex, shorten, table_lines};

/// What the lists came to.
#[derive(Default)]
pub struct Tally {
    pub lists: u64,
    pub honest: u64,
    pub calls: u64,
    pub refused: u64,
    pub frames: u64,
    pub lost: u64,
    pub pairs: u64,
    pub accepted: u64,
    pub abandoned: u64,
    pub ended: u64,
    pub set_ups: u64,
    /// Times that the panel's question was asked after a call, and the most good links that it answered.
    pub asked: u64,
    pub most_good: u32,
    /// Tables that got another number of good links than theirs, and then were filled.
    pub filled: u64,
    /// Tables moved to the wide form and to the narrow one, and moves that were refused.
    pub moved: [u64; 2],
    pub not_moved: u64,
    /// Lists that began with two narrow tables, with one of each form, and with two wide ones.
    pub begun: [u64; 3],
    /// Runs accepted in the groups 19, 20 and 21.
    pub accepted_in: [u64; 3],
    /// Times that both links with each other became finished and clear.
    pub agreed: u64,
    /// Times that two finished links with each other came to differ, at least one of them marked.
    pub parted: u64,
    /// Runs accepted while the two printers were set to another period or another Sync limit.
    pub accepted_unlike: u64,
    /// The most repeats in a run with Sync limit 1, 2 and so on to 10: before its pair stands, and after.
    pub repeats: [[u32; 2]; 10],
}

impl Tally {
    pub fn print(&self) {
        println!("  {} lists of calls at two printers, {} of them with demand 3's premises kept", self.lists, self.honest);
        println!(
            "    {} calls (writers aside), {} of them refused; {} frames sent, {} lost; {} further set ups",
            self.calls, self.refused, self.frames, self.lost, self.set_ups
        );
        println!(
            "    {} pairs formed, {} runs accepted, {} given up, {} links ended",
            self.pairs, self.accepted, self.abandoned, self.ended
        );
        let ([narrow, mixed, wide], [in_19, in_20, in_21]) = (self.begun, self.accepted_in);
        println!("    begun with two narrow tables {narrow} times, with one of each form {mixed}, with two wide ones {wide}");
        println!("    links accepted in group 19: {in_19}, 20: {in_20}, 21: {in_21}");
        println!("    {} of them while the two printers had another period or another Sync limit", self.accepted_unlike);
        println!(
            "    the panel's question asked {} times, up to {} good links, always as many as the answers said; {} tables filled",
            self.asked, self.most_good, self.filled
        );
        let [widened, narrowed] = self.moved;
        println!(
            "    tables moved to the wide form {widened} times, to the narrow one {narrowed}, and used on; {} moves refused",
            self.not_moved
        );
        println!("    (a) the table's links were what the answers said, after each call");
        println!(
            "    (b) both links clear {} times, always the same pair; {} times two links parted, at least one marked",
            self.agreed, self.parted
        );
        println!("    (c) for each link the other had formed the pair");
        let most = |(place, [before, after]): (usize, &[u32; 2])| format!("{}: {before}, {after}", place + 1);
        let most: Vec<String> = self.repeats.iter().enumerate().map(most).collect();
        println!("    (d) the most repeats before a run's pair stood, and after, by the run's Sync limit: {}", most.join("; "));
        println!("        each at most the limit + 1; Sync counted them, after each call");
    }
}

/// A frame that a printer sent to the other, and the pair that a Confirm was made over.
struct Made {
    octets: Vec<u8>,
    over: Option<Pair>,
}

/// What happened at a printer: a buffer became its table, or a call was made, with its place in the whole list.
enum Step {
    Table(Vec<u8>),
    Made(u64, Call),
}

struct Printer {
    own: Address,
    together: Together,
    /// All its calls so far, the writers' too.
    steps: Vec<Step>,
    history: History,
    now: u32,
    /// All that it sent to the other, in order.
    made: Vec<Made>,
    /// Frames on their way to it: places in the other's `made`.
    air: Vec<usize>,
    /// Fresh commits that were handed over and not used.
    unused: Option<Vec<u8>>,
}

impl Printer {
    fn groups(&self) -> Groups {
        groups_of(self.together.table())
    }

    fn form(&self) -> &'static Layout {
        Layout::of(self.together.table()).expect("each call left a table of its form")
    }

    fn pace(&self) -> Pace {
        pace_of(self.together.table()).expect("each call left a table of its form")
    }

    /// A buffer becomes the table.
    fn set(&mut self, buffer: &[u8], known: Known) {
        self.together.set(buffer, known);
        self.steps.push(Step::Table(buffer.to_vec()));
    }

    /// The lines that make this printer's calls again, with what they return and leave.
    fn trace(&self) -> String {
        let mut lines = format!("# the calls of {}, each under its place in the list\n", hex(&self.own));
        let mut table = Vec::new();
        for step in &self.steps {
            match step {
                Step::Table(buffer) => {
                    lines += &format!("{}\n", table_lines(buffer));
                    table = buffer.clone();
                }
                Step::Made(place, call) => {
                    let (before, mut lent) = (table.clone(), Lent::for_call(call));
                    let number = call.make(engines()[0], &mut table, &mut lent);
                    lines += &format!("# {place}\n{}\n{}\n", call_line(call), expected_lines(call, &before, number, &lent, &table));
                    table = call.used_on(number, &table, &lent).to_vec();
                }
            }
        }
        lines
    }
}

/// How the chip makes a Confirm's value.
#[derive(Clone, Copy)]
enum Chip {
    /// From the pair and the counter.
    Told,
    /// The same for all: octets alone do not tell which pair a Confirm was made over.
    Same,
    /// Anew for each.
    Random,
}

struct World<'a> {
    random: &'a mut Random,
    honest: bool,
    printers: [Printer; 2],
    pool: Pool,
    chip: Chip,
    loss: usize,
    serial: u64,
    /// Calls made so far, the writers' too.
    made: u64,
    together_before: (bool, bool),
    counts: &'a mut Counts,
    tally: &'a mut Tally,
}

/// Plays one list of so many calls.
pub fn play(random: &mut Random, honest: bool, calls: usize, counts: &mut Counts, tally: &mut Tally) -> Result<(), Fault> {
    let pool = Pool::new(random);
    let other = *random.pick(&pool.addresses);
    let forms = [0, 1].map(|_| *random.pick(&FORMS));
    let groups = *random.pick(if forms.contains(&&NARROW) { NARROW.lists() } else { WIDE.lists() });
    let printers = [pool.own, other].map(|own| Printer {
        own,
        together: Together::new(&[], Known::Nothing),
        steps: Vec::new(),
        history: History::default(),
        now: *random.pick(&[0, u32::MAX - 500, 1 << 31, 12345]),
        made: Vec::new(),
        air: Vec::new(),
        unused: None,
    });
    let chip = *random.pick(&[Chip::Told, Chip::Same, Chip::Random]);
    let loss = *random.pick(&[0, 5, 20, 50]);
    tally.lists += 1;
    tally.honest += u64::from(honest);
    tally.begun[forms.iter().filter(|form| ***form == WIDE).count()] += 1;
    let mut world =
        World { random, honest, printers, pool, chip, loss, serial: 0, made: 0, together_before: (false, false), counts, tally };
    for (who, form) in forms.into_iter().enumerate() {
        let list = if world.random.percent(60) { groups } else { *world.random.pick(form.lists()) };
        match *form == WIDE {
            true => world.set_up(who, list)?,
            false => world.hand_over(who, list),
        }
    }
    for _ in 0..calls {
        world.turn()?;
    }
    Ok(())
}

impl World<'_> {
    fn turn(&mut self) -> Result<(), Fault> {
        let who = self.random.below(2);
        let air = self.printers[who].air.len();
        match self.random.below(100) {
            0..=54 if air > 0 => self.deliver(who),
            0..=69 => self.clock(who),
            70..=76 => self.initiate(who),
            77 => self.kill(who),
            78 if self.random.percent(20) => {
                let list = *self.random.pick(&LISTS);
                self.set_up(who, list)
            }
            78..=80 => self.refused(who),
            81 => self.panel(who),
            82..=83 => self.move_table(who),
            84..=86 => self.replay(who),
            87..=95 => self.third_party(who),
            _ if !self.honest => self.anything(who),
            _ => self.clock(who),
        }
    }

    /// A number of slots and settings with these groups. Now and then a narrow table has more slots than a wide one can have.
    fn chosen(&mut self, form: &Layout, groups: Groups) -> (usize, Settings) {
        let slots = match self.random.below(100) {
            0..=69 => self.random.within(1, 2),
            70 => self.random.within(WIDE.slots, form.slots),
            _ => slots(self.random, form).min(8),
        };
        let threshold = *self.random.pick(&[5, 5, 5, 1, 0]);
        (slots, Settings { groups, threshold, period: period(self.random), sync_limit: sync_limit(self.random) })
    }

    /// A fresh table of the narrow form, as set up made it before: a list may begin with one.
    fn hand_over(&mut self, who: usize, groups: Groups) {
        let (slots, settings) = self.chosen(&NARROW, groups);
        let table = NARROW.fresh_table(slots, &self.printers[who].own, &settings);
        self.printers[who].set(&table, Known::Sound);
    }

    /// Set up with a buffer of its own: another number of slots, other groups, another threshold, period and Sync limit, the same own
    /// address. What was narrow is wide from then on.
    fn set_up(&mut self, who: usize, groups: Groups) -> Result<(), Fault> {
        let (slots, settings) = self.chosen(&WIDE, groups);
        let buffer = vec![self.random.octet(); WIDE.length(slots)];
        let settings = settings.octets();
        let old = self.printers[who].together.table().to_vec();
        let refuse = !old.is_empty() && self.random.percent(20);
        let own = if refuse { [0; 6] } else { self.printers[who].own };
        self.printers[who].set(&buffer, Known::Nothing);
        self.tally.set_ups += u64::from(!old.is_empty());
        self.call(who, Call::Initialize { own, settings })?;
        if refuse {
            // "and a set up that is not refused makes its buffer the table"
            self.printers[who].set(&old, Known::Sound);
        }
        Ok(())
    }

    /// Takes a frame out of the air: mostly the oldest; some are lost, some stay to be delivered again.
    fn deliver(&mut self, who: usize) -> Result<(), Fault> {
        let air = &mut self.printers[who].air;
        let place = if self.random.percent(80) { 0 } else { self.random.below(air.len()) };
        let frame = air[place];
        if !self.random.percent(10) {
            air.remove(place);
        }
        if self.random.percent(self.loss) {
            self.tally.lost += 1;
            return Ok(());
        }
        self.receive_from_other(who, frame)
    }

    /// Any frame that the other ever sent to this one.
    fn replay(&mut self, who: usize) -> Result<(), Fault> {
        match self.printers[1 - who].made.len() {
            0 => Ok(()),
            made => {
                let frame = self.random.below(made);
                self.receive_from_other(who, frame)
            }
        }
    }

    fn receive_from_other(&mut self, who: usize, frame: usize) -> Result<(), Fault> {
        let other = self.printers[1 - who].own;
        let frame = self.printers[1 - who].made[frame].octets.clone();
        let verified = self.verdict(who, &frame);
        self.receive(who, other, frame, verified)
    }

    /// The chip's verdict on a frame from the other. It is free but for a Confirm that meets a pair.
    fn verdict(&mut self, who: usize, frame: &[u8]) -> u8 {
        let yes = self.random.percent(95);
        let other = &self.printers[1 - who];
        let met = self.printers[who].history.peers.get(&other.own).and_then(|peer| peer.met());
        let confirm = get16(frame, 2) == CONFIRM && get16(frame, 4) == SUCCESS;
        match met {
            Some(pair) if confirm && self.honest => {
                let right = other.made.iter().any(|made| made.over == Some(pair.exchanged()) && made.octets == frame);
                u8::from(right && yes)
            }
            _ => u8::from(yes),
        }
    }

    /// A frame from neither printer: made up, or one of theirs under another address.
    fn third_party(&mut self, who: usize) -> Result<(), Fault> {
        let third = self.third_address(who);
        let made = &self.printers[self.random.below(2)].made;
        let frame = match made.len() {
            0 => None,
            length if self.random.percent(40) => Some(made[self.random.below(length)].octets.clone()),
            _ => None,
        };
        let frame = frame.unwrap_or_else(|| self.pool.frame(self.random, self.printers[who].together.table()));
        let verified = u8::from(self.random.percent(80));
        self.receive(who, third, frame, verified)
    }

    fn third_address(&mut self, who: usize) -> Address {
        let (own, other) = (self.printers[who].own, self.printers[1 - who].own);
        let mut thirds = self.pool.addresses.iter().filter(|&&address| address != own && address != other);
        *thirds.nth(self.random.below(3)).expect("there are more")
    }

    /// Anything at all: a list with such a call keeps no premise.
    fn anything(&mut self, who: usize) -> Result<(), Fault> {
        let other = self.printers[1 - who].own;
        let table = self.printers[who].together.table();
        let mut call = self.pool.call(self.random, table);
        match &mut call {
            Call::Initialize { own, .. } => *own = self.printers[who].own,
            Call::Receive { address, .. } | Call::Initiate { address, .. } | Call::Kill { address } if self.random.percent(70) => {
                *address = other
            }
            _ => {}
        }
        if let Call::Receive { fresh, .. } | Call::Initiate { fresh, .. } = &mut call {
            *fresh = self.fresh(who);
        }
        self.call(who, call)
    }

    /// The panel's question, a fill of the table as it is, or one after an update: the table has another number of good links, as one of
    /// before they were counted has none, and every other call refuses it.
    fn panel(&mut self, who: usize) -> Result<(), Fault> {
        let sound = self.printers[who].together.table().to_vec();
        match self.random.below(3) {
            0 => return self.call(who, Call::GoodLinks { header: panel::header(&sound).to_vec() }),
            1 => return self.call(who, Call::Fill),
            _ => {}
        }
        let right = panel::told(&sound);
        let wrong = if right > 0 && self.random.percent(70) { 0 } else { right ^ (1 << self.random.below(16)) };
        let mut old = sound.clone();
        put16(&mut old, GOOD_AT, wrong);
        self.printers[who].set(&old, Known::Unfilled);
        let (address, now) = (self.printers[1 - who].own, self.printers[who].now);
        let moved = self.pool.some_move(self.random, &old);
        let calls = [Call::Kill { address }, Call::Expire { now }, Call::NextDeadline { now }, Call::Find { address }, moved];
        let call = self.random.pick(&calls).clone();
        self.call(who, call)?;
        self.tally.filled += 1;
        self.call(who, Call::Fill)?;
        match self.printers[who].together.table() == sound {
            true => Ok(()),
            false => Err(self.breach(&Call::Fill, "fill did not make the table what it was".into())),
        }
    }

    /// A move to the other form, right or refused: after a right one the list goes on with the moved table.
    fn move_table(&mut self, who: usize) -> Result<(), Fault> {
        let call = self.pool.some_move(self.random, self.printers[who].together.table());
        self.call(who, call)
    }

    /// After a move: fresh commits that were not used are offered again in the width of the table's form.
    fn after_move(&mut self, who: usize) {
        let printer = &mut self.printers[who];
        let (form, groups) = (printer.form(), printer.groups());
        let before = form.other();
        printer.unused = printer.unused.take().filter(|fresh| before.fresh_right(&groups, fresh)).map(|fresh| other_parts(&fresh, before));
        self.tally.moved[usize::from(*form == NARROW)] += 1;
    }

    /// After a call, the panel's question asked of the table's header alone: as many as the answers said.
    fn ask(&mut self, who: usize, after: &Call) -> Result<(), Fault> {
        let Printer { history, together, .. } = &self.printers[who];
        let (header, said) = (panel::header(together.table()).to_vec(), history.good_links() as u32);
        let answer = |engine: &&dyn Engine| {
            let mut good = u32::MAX;
            (engine.good_links(&header, &mut good), good)
        };
        let answers: Vec<(u32, u32)> = engines().iter().map(answer).collect();
        if answers.iter().any(|answer| *answer != (0, said)) {
            self.make(who, &Call::GoodLinks { header })?;
            let what = format!("the answers said {said} clear links, and the panel's question returned and told {answers:?}");
            return Err(self.breach(after, what));
        }
        self.tally.asked += 1;
        self.tally.most_good = self.tally.most_good.max(said);
        Ok(())
    }

    /// A call that is refused, with anything in it: no premise binds it.
    fn refused(&mut self, who: usize) -> Result<(), Fault> {
        let other = self.printers[1 - who].own;
        let table = self.printers[who].together.table();
        let frame = self.pool.frame(self.random, table);
        let (now, fresh) = (self.printers[who].now, self.fresh(who));
        let mut expected = vec![7; 32];
        let mut verified = 1;
        match self.random.below(4) {
            0 => verified = 2,
            1 => expected.truncate(31),
            2 => return self.call(who, Call::Initiate { address: other, now, fresh: fresh[1..].to_vec() }),
            _ => return self.call(who, Call::Kill { address: self.printers[who].own }),
        }
        self.call(who, Call::Receive { address: other, now, frame, fresh, expected, verified })
    }

    fn receive(&mut self, who: usize, address: Address, frame: Vec<u8>, verified: u8) -> Result<(), Fault> {
        let now = self.advance(who, 3);
        let fresh = self.fresh(who);
        let expected = token(self.printers[who].own, address);
        self.call(who, Call::Receive { address, now, frame, fresh, expected, verified })
    }

    fn initiate(&mut self, who: usize) -> Result<(), Fault> {
        let now = self.advance(who, 3);
        let address = if self.random.percent(80) { self.printers[1 - who].own } else { self.third_address(who) };
        let fresh = self.fresh(who);
        self.call(who, Call::Initiate { address, now, fresh })
    }

    fn kill(&mut self, who: usize) -> Result<(), Fault> {
        let address = if self.random.percent(60) { self.printers[1 - who].own } else { self.third_address(who) };
        self.call(who, Call::Kill { address })
    }

    /// Moves the clock: mostly to the next deadline, now and then anywhere.
    fn clock(&mut self, who: usize) -> Result<(), Fault> {
        let now = self.printers[who].now;
        let table = self.printers[who].together.table();
        let t0s = records(table).filter(Seen::has_run).map(|peer| peer.t0());
        let next = t0s.min_by_key(|deadline| deadline.wrapping_sub(now)).unwrap_or(now);
        self.printers[who].now = match self.random.below(100) {
            0 => self.random.number32(),
            1 => now.wrapping_add(86_400_000),
            2..=29 => now.wrapping_add(self.random.below(60) as u32),
            _ => next,
        };
        self.call(who, Call::Expire { now: self.printers[who].now })
    }

    fn advance(&mut self, who: usize, most: usize) -> u32 {
        let printer = &mut self.printers[who];
        printer.now = printer.now.wrapping_add(self.random.below(most + 1) as u32);
        printer.now
    }

    /// Fresh commits that no call has used yet; in a list without premises now and then used ones.
    fn fresh(&mut self, who: usize) -> Vec<u8> {
        if let Some(unused) = self.printers[who].unused.take() {
            if self.random.percent(if self.honest { 10 } else { 50 }) && self.right(who, &unused) {
                return unused;
            }
        }
        let (form, groups) = (self.printers[who].form(), self.printers[who].groups());
        let mut fresh = vec![0; form.commit * usize::from(groups.count)];
        for (place, &group) in fresh.chunks_exact_mut(form.commit).zip(groups.listed()) {
            self.random.fill(&mut place[..commit_len(group)]);
            self.serial += 1;
            place[..8].copy_from_slice(&self.serial.to_le_bytes());
        }
        fresh
    }

    fn right(&self, who: usize, fresh: &[u8]) -> bool {
        self.printers[who].form().fresh_right(&self.printers[who].groups(), fresh)
    }

    /// Makes a call and keeps it for a trace.
    fn make(&mut self, who: usize, call: &Call) -> Result<(u32, Lent), Fault> {
        self.made += 1;
        self.printers[who].steps.push(Step::Made(self.made, call.clone()));
        self.printers[who].together.call(call, self.counts)
    }

    /// A breach of demand 3 after a call, with the calls that lead to it: one printer's, then the other's.
    fn breach(&self, call: &Call, what: String) -> Fault {
        let calls = self.printers.each_ref().map(Printer::trace).concat();
        let told = format!("{what}\n  after call {} of the list: {}", self.made, shorten(&call_line(call)));
        Fault { what: told, trace: format!("# demand 3, after call {} of the list: {what}\n{calls}", self.made) }
    }

    /// Makes a call, takes in its answer, sends its frames and checks demand 3.
    fn call(&mut self, who: usize, call: Call) -> Result<(), Fault> {
        let (number, lent) = self.make(who, &call)?;
        self.tally.calls += 1;
        if number != 0 {
            self.tally.refused += 1;
            self.tally.not_moved += u64::from(call.moves());
            return Ok(());
        }
        if call.moves() {
            self.after_move(who);
            self.check(who).map_err(|what| self.breach(&call, what))?;
        }
        if !call.answers() {
            return self.ask(who, &call);
        }
        let answer = Answer::read(&lent.answer);
        let before = self.printers[who].history.peers.get(&answer.address).and_then(|peer| peer.last_pair);
        let Printer { history, together, .. } = &mut self.printers[who];
        history.take(&call, &answer, together.table()).map_err(|what| self.breach(&call, what))?;
        let after = self.printers[who].history.peers.get(&answer.address);
        self.tally.pairs += u64::from(after.and_then(|peer| peer.last_pair) != before);
        if let Some(run) = after.and_then(|peer| peer.run) {
            let most = &mut self.tally.repeats[usize::from(run.limit) - 1];
            *most = [0, 1].map(|place| most[place].max(run.repeats[place]));
        }
        match answer.event {
            1 => {
                self.tally.accepted += 1;
                self.tally.accepted_unlike += u64::from(self.printers[0].pace() != self.printers[1].pace());
                let group = after.and_then(|peer| peer.link).map_or(19, |link| link.pair.group);
                self.tally.accepted_in[ALL.place(group)] += 1;
            }
            2 => self.tally.abandoned += 1,
            3 => self.tally.ended += 1,
            _ => {}
        }
        if let Call::Initiate { fresh, .. } | Call::Receive { fresh, .. } = &call {
            if answer.fresh_group == 0 || !self.honest {
                self.printers[who].unused = Some(fresh.clone());
            }
        }
        for sent in &answer.frames {
            self.send(who, &call, &answer, sent)?;
        }
        self.check(who).map_err(|what| self.breach(&call, what))?;
        self.ask(who, &call)
    }

    /// "The frames in an answer are sent to its address as the writer makes them from the table just left."
    fn send(&mut self, who: usize, call: &Call, answer: &Answer, sent: &Sent) -> Result<(), Fault> {
        let peer = &self.printers[who].history.peers[&answer.address];
        let over = match (sent.sequence, sent.counter) {
            (CONFIRM, LINK_COUNTER) => peer.link.map(|link| link.pair),
            (CONFIRM, _) => peer.last_pair,
            _ => None,
        };
        let (address, sequence, room) = (answer.address, sent.sequence, 500);
        let write = match (sent.sequence, sent.status) {
            (COMMIT_FRAME, SUCCESS) => Call::WriteRecord { address, sequence, value: Vec::new(), room },
            (CONFIRM, _) => Call::WriteRecord { address, sequence, value: self.value(over, sent.counter), room },
            (_, status) => {
                let expected = match call {
                    Call::Receive { expected, .. } if status == TOKEN_REQUIRED => expected.clone(),
                    _ => Vec::new(),
                };
                Call::WriteParts { sequence, status, group: sent.group, counter: 0, token: expected, rest: Vec::new(), room }
            }
        };
        let (number, lent) = self.make(who, &write)?;
        if number != 0 {
            return Err(self.breach(call, format!("the writer refused {number} a frame of the answer: {sent:?}")));
        }
        let octets = lent.out[..lent.written as usize].to_vec();
        if !says(frame::read(&octets, &ALL), sent) {
            return Err(self.breach(call, format!("what was written is not the frame of the answer: {sent:?}")));
        }
        self.tally.frames += 1;
        if address == self.printers[1 - who].own {
            let place = self.printers[who].made.len();
            self.printers[who].made.push(Made { octets, over });
            self.printers[1 - who].air.push(place);
        }
        Ok(())
    }

    /// The chip's value for a Confirm.
    fn value(&mut self, over: Option<Pair>, counter: u16) -> Vec<u8> {
        let mut value = vec![0u8; VALUE];
        match (self.chip, over) {
            (Chip::Told, Some(pair)) => {
                let octets = [&pair.own[..], &pair.peer[..], &counter.to_le_bytes()].concat();
                for (place, octet) in octets.iter().enumerate() {
                    let sum = &mut value[place % VALUE];
                    *sum = sum.wrapping_mul(31).wrapping_add(*octet);
                }
            }
            (Chip::Random, _) => self.random.fill(&mut value),
            _ => {}
        }
        value
    }

    /// Demand 3's conclusions, now.
    fn check(&mut self, who: usize) -> Result<(), String> {
        let printer = &self.printers[who];
        printer.history.agrees(printer.together.table())?;
        if !self.honest {
            return Ok(());
        }
        let [a, b] = &self.printers;
        let links = [a.history.peers.get(&b.own), b.history.peers.get(&a.own)];
        let link = |place: usize| links[place].and_then(|peer| peer.link);
        for place in 0..2 {
            let formed = |pair: &Pair| links[1 - place].is_some_and(|peer| peer.formed.contains(&pair.exchanged()));
            if link(place).is_some_and(|link| !formed(&link.pair)) {
                return Err("(c) a finished link, and the other never formed its pair".into());
            }
        }
        let (mut agreed, mut parted) = (false, false);
        if let (Some(a), Some(b)) = (link(0), link(1)) {
            let (clear, same) = (!a.marked && !b.marked, a.pair == b.pair.exchanged());
            if clear && !same {
                return Err("(b) two clear finished links with each other differ".into());
            }
            (agreed, parted) = (clear, !same);
        }
        let before = std::mem::replace(&mut self.together_before, (agreed, parted));
        self.tally.agreed += u64::from(agreed && !before.0);
        self.tally.parted += u64::from(parted && !before.1);
        Ok(())
    }
}

/// The token that a printer's host expects from an address.
fn token(own: Address, address: Address) -> Vec<u8> {
    (0..32).map(|place| own[place % 6] ^ address[(place + 1) % 6].wrapping_mul(place as u8 | 1)).collect()
}

/// Whether a body is the frame that an answer tells.
fn says(body: Option<Body>, sent: &Sent) -> bool {
    match body {
        Some(Body::Commit { group, .. }) => (sent.sequence, sent.status, sent.group, sent.counter) == (1, 0, group, 0),
        Some(Body::TokenRequest { group, .. }) => (sent.sequence, sent.status, sent.group, sent.counter) == (1, 76, group, 0),
        Some(Body::GroupRefusal { group }) => (sent.sequence, sent.status, sent.group, sent.counter) == (1, 77, group, 0),
        Some(Body::Confirm { counter, elements: [] }) => (sent.sequence, sent.status, sent.group, sent.counter) == (2, 0, 0, counter),
        _ => false,
    }
}
