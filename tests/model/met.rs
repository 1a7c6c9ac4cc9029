//! What random calls met.
use crate::kernel::kinds::KINDS;
use crate::kernel::{level_bit, Call, Kernel, Outcome, Place, State, Task, Wanted, TASKS};
use std::collections::BTreeMap;

/// What the sequences met, to show that they reach the corners.
#[derive(Default)]
pub struct Met {
    /// by kind and answer
    answers: BTreeMap<(u8, u32), u64>,
    longest_chain: usize,
    rings: u64,
    largest_ring: usize,
    wraps: u64,
    suspended_given: u64,
    forced: u64,
    forced_on_ring: u64,
    several_due: u64,
    locked: u64,
    /// tasks created with 0 while the default was another than the fresh table's
    by_default: u64,
    /// ticks that ended a turn
    turns: u64,
    flags: MetFlags,
    channels: MetChannels,
    levels: MetLevels,
    moves: MetMoves,
}

/// Did a chain change the working priority of a task that waits, and waits on, in such a state?
fn moved_one(before: &Kernel, after: &Kernel, waits: impl Fn(State) -> bool) -> bool {
    let moved = |was: &Task, is: &Task| was.working != is.working && was.base == is.base;
    before.tasks.iter().zip(&after.tasks).any(|(was, is)| waits(was.state) && was.state == is.state && moved(was, is))
}

/// What the posts of flags met.
#[derive(Default)]
struct MetFlags {
    most_woken: usize,
    several_woken: u64,
    /// a woken waiter behind one that stays
    past_others: u64,
    /// two who woke consumed the same flag
    same_consumed: u64,
    /// others would wake if each one's flags were turned over at once
    by_turns: u64,
    /// a waiter whose test is met stands there afterwards
    met_left: u64,
    /// calls by which a chain changed the working priority of a waiter for flags
    moved: u64,
}

impl MetFlags {
    fn note(&mut self, before: &Kernel, after: &Kernel, call: Call) {
        let [g, mask, on, ..] = call.numbers;
        let (was, now) = (&before.groups[g as usize], &after.groups[g as usize]);
        let left = if on == 1 { was.flags | mask } else { was.flags & !mask };
        let wants = |t: usize, kernel: &Kernel| match kernel.tasks[t].state {
            State::Flags(_, wanted) => wanted,
            _ => unreachable!(),
        };
        let all: Vec<Wanted> = was.queue.iter().map(|&t| wants(t, before)).collect();
        let woken: Vec<bool> = was.queue.iter().map(|t| !now.queue.contains(t)).collect();
        let count = woken.iter().filter(|&&woke| woke).count();
        self.most_woken = self.most_woken.max(count);
        self.several_woken += u64::from(count > 1);
        self.past_others += u64::from(woken.windows(2).any(|two| !two[0] && two[1]));
        let consumed = || all.iter().zip(&woken).filter(|two| *two.1).map(|two| two.0.consumed(left));
        let shares = consumed().map(|flags| u64::from(flags.count_ones())).sum::<u64>();
        let joined = consumed().fold(0, |joined: u32, flags| joined | flags);
        self.same_consumed += u64::from(shares > u64::from(joined.count_ones()));
        let mut flags = left;
        let by_turns = all.iter().map(|wanted| {
            let met = wanted.met(flags);
            flags ^= if met { wanted.consumed(flags) } else { 0 };
            met
        });
        self.by_turns += u64::from(!by_turns.eq(woken.iter().copied()));
        self.met_left += u64::from(now.queue.iter().any(|&t| wants(t, after).met(now.flags)));
    }

    fn tell(&self) {
        println!("  waiters for flags that a chain moved {}", self.moved);
        let Self { several_woken, most_woken, past_others, .. } = self;
        println!("  flag posts that woke several {several_woken} (most {most_woken}), past others {past_others}");
        println!(
            "  of them: the same flag consumed twice {}, others would wake by turns {}, a waiter left that is met {}",
            self.same_consumed, self.by_turns, self.met_left
        );
    }
}

/// How often each of a list of things was met.
struct Counts {
    of: &'static str,
    names: &'static [&'static str],
    met: BTreeMap<&'static str, u64>,
}

impl Counts {
    fn new(of: &'static str, names: &'static [&'static str]) -> Counts {
        Counts { of, names, met: BTreeMap::new() }
    }

    fn count(&mut self, name: &'static str, met: bool) {
        assert!(self.names.contains(&name));
        *self.met.entry(name).or_default() += u64::from(met);
    }

    fn times(&self, name: &str) -> u64 {
        self.met.get(name).copied().unwrap_or(0)
    }

    fn unmet(&self) -> impl Iterator<Item = String> + '_ {
        self.names.iter().filter(|name| self.times(name) == 0).map(|name| format!("{}, {name}", self.of))
    }

    /// With what else there is to tell of it.
    fn tell(&self, most: String) {
        let list: Vec<String> = self.names.iter().map(|name| format!("{name} {}", self.times(name))).collect();
        println!("  {}: {}, {most}", self.of, list.join(", "));
    }
}

/// What the calls for channels met.
struct MetChannels {
    counts: Counts,
    most_flushed: u32,
}

impl Default for MetChannels {
    fn default() -> MetChannels {
        MetChannels { counts: Counts::new("channels", &MET_CHANNELS), most_flushed: 0 }
    }
}

const MET_CHANNELS: [&str; 16] = [
    "posts to a waiter",
    "to the first of several waiters",
    "to a suspended waiter",
    "to a waiter by an interrupt",
    "to the front before others",
    "to the end behind others",
    "posts that filled one of 32",
    "interrupts' posts refused with 16",
    "messages of 0 taken",
    "taken when locked",
    "flushes that told more than 0",
    "deletes of messages",
    "forced deletes of several waiters",
    "waits timed out",
    "waits ended with an older message",
    "waiters moved by a chain",
];

impl MetChannels {
    fn count(&mut self, name: &'static str, met: bool) {
        self.counts.count(name, met);
    }

    fn note(&mut self, before: &Kernel, after: &Kernel, call: Call, outcome: Outcome) {
        let waits = |state| matches!(state, State::Channel(_));
        self.count("waiters moved by a chain", moved_one(before, after, waits));
        let ends = |t: usize| waits(before.tasks[t].state) && after.tasks[t].state == State::Plain && after.tasks[t].outcome > 0;
        let ended: Vec<usize> = (0..TASKS).filter(|&t| ends(t)).collect();
        self.count("waits timed out", ended.iter().any(|&t| after.tasks[t].outcome == 1));
        self.count("waits ended with an older message", ended.iter().any(|&t| after.tasks[t].message > 0));
        self.count("interrupts' posts refused with 16", call.kind == 0xC3 && outcome.answer == 16);
        if outcome.answer == 0 && (0x40..=0x45).contains(&(call.kind & 0x7F)) {
            self.note_done(before, after, call);
        }
        self.count("flushes that told more than 0", outcome.further > 0);
        self.most_flushed = self.most_flushed.max(outcome.further);
    }

    fn note_done(&mut self, before: &Kernel, after: &Kernel, call: Call) {
        let c = call.numbers[0] as usize;
        let (was, is) = (&before.channels[c], &after.channels[c]);
        match call.kind & 0x7F {
            0x41 => {
                self.count("deletes of messages", !was.messages.is_empty());
                self.count("forced deletes of several waiters", was.queue.len() > 1);
            }
            0x42 => {
                self.count("messages of 0 taken", was.messages[0] == 0);
                self.count("taken when locked", before.depth > 0);
            }
            0x43 => {
                self.count("posts to a waiter", !was.queue.is_empty());
                self.count("to the first of several waiters", was.queue.len() > 1);
                self.count("to a suspended waiter", was.queue.first().map_or(false, |&t| before.tasks[t].suspends > 0));
                self.count("to a waiter by an interrupt", !was.queue.is_empty() && call.kind == 0xC3);
                self.count("to the front before others", !was.messages.is_empty() && call.numbers[2] == 1);
                self.count("to the end behind others", !was.messages.is_empty() && call.numbers[2] == 0);
                self.count("posts that filled one of 32", is.messages.len() == 32);
            }
            _ => {}
        }
    }

    fn tell(&self) {
        self.counts.tell(format!("most that a flush told {}", self.most_flushed));
    }
}

/// What the calls did to the ready word.
struct MetLevels {
    counts: Counts,
    most: u32,
}

impl Default for MetLevels {
    fn default() -> MetLevels {
        MetLevels { counts: Counts::new("ready levels", &MET_LEVELS), most: 0 }
    }
}

const MET_LEVELS: [&str; 13] = [
    "a bit set",
    "one cleared",
    "one moved",
    "changed when locked",
    "none left",
    "level 0 alone",
    "level 62 alone",
    "each byte of the word",
    "a task before its equals left",
    "one behind them",
    "one between them",
    "an able task raised by a mutex wait",
    "an able task lowered",
];

impl MetLevels {
    fn note(&mut self, before: &Kernel, after: &Kernel, call: Call) {
        let (set, cleared) = (after.ready & !before.ready, before.ready & !after.ready);
        self.most = self.most.max(after.ready.count_ones());
        let mut count = |name, met| self.counts.count(name, met);
        count("a bit set", set != 0);
        count("one cleared", cleared != 0);
        count("one moved", set != 0 && cleared != 0);
        count("changed when locked", before.depth > 0 && before.ready != after.ready);
        count("none left", before.ready != 0 && after.ready == 0);
        count("level 0 alone", after.ready == level_bit(0));
        count("level 62 alone", after.ready == level_bit(62));
        count("each byte of the word", after.ready.to_le_bytes().iter().all(|&byte| byte != 0));
        for (at, &t) in before.able.iter().enumerate() {
            let (was, is) = (before.tasks[t].working, after.tasks[t].working);
            let equal = |other: Option<&usize>| other.map_or(false, |&other| before.tasks[other].working == was);
            let sides = (equal(at.checked_sub(1).and_then(|at| before.able.get(at))), equal(before.able.get(at + 1)));
            if !after.is_able(t) && after.ready & level_bit(was) != 0 {
                count("a task before its equals left", sides == (false, true));
                count("one behind them", sides == (true, false));
                count("one between them", sides == (true, true));
            }
            if after.is_able(t) {
                count("an able task raised by a mutex wait", is < was && call.kind == 0x22);
                count("an able task lowered", is > was && call.kind != 0x03);
            }
        }
    }

    fn tell(&self) {
        self.counts.tell(format!("most at once {}", self.most));
    }
}

/// Who came before its equals, or behind them, as its working priority changed in its queue.
struct MetMoves {
    counts: Counts,
    most: usize,
}

impl Default for MetMoves {
    fn default() -> MetMoves {
        MetMoves { counts: Counts::new("moves", &MET_MOVES), most: 0 }
    }
}

const MET_MOVES: [&str; 10] = [
    "an able task raised before an equal",
    "one that so took the processor",
    "a waiter for a semaphore raised before an equal",
    "one for a mutex",
    "one for flags",
    "one for a message",
    "raised before another that the same call raised",
    "raised before who came by the same call",
    "an able task lowered behind an equal",
    "a waiter lowered behind an equal",
];

impl MetMoves {
    fn note(&mut self, before: &Kernel, after: &Kernel) {
        let stays = |t: usize| before.home(t).is_some() && before.home(t) == after.home(t);
        let raised = |t: usize| stays(t) && after.tasks[t].working < before.tasks[t].working;
        let lowered = |t: usize| stays(t) && after.tasks[t].working > before.tasks[t].working;
        self.most = self.most.max((0..TASKS).filter(|&t| raised(t)).count());
        let mut count = |name, met| self.counts.count(name, met);
        for place in Kernel::places() {
            for two in after.queue(place).windows(2) {
                let (first, second) = (two[0], two[1]);
                if after.tasks[first].working != after.tasks[second].working {
                    continue;
                }
                if raised(first) {
                    let name = match place {
                        Place::Able => "an able task raised before an equal",
                        Place::Semaphore(_) => "a waiter for a semaphore raised before an equal",
                        Place::Mutex(_) => "one for a mutex",
                        Place::Group(_) => "one for flags",
                        Place::Channel(_) => "one for a message",
                    };
                    count(name, true);
                    count("one that so took the processor", before.running == Some(second) && after.running == Some(first));
                    count("raised before another that the same call raised", raised(second));
                    count("raised before who came by the same call", !stays(second));
                }
                count("an able task lowered behind an equal", place == Place::Able && lowered(second));
                count("a waiter lowered behind an equal", place != Place::Able && lowered(second));
            }
        }
    }

    fn tell(&self) {
        self.counts.tell(format!("most raised by one call {}", self.most));
    }
}

impl Met {
    pub fn note(&mut self, before: &Kernel, after: &Kernel, call: Call, outcome: Outcome) {
        let answer = outcome.answer;
        *self.answers.entry((call.kind & 0x7F, answer)).or_default() += 1;
        self.locked += u64::from(before.depth > 0);
        self.flags.moved += u64::from(moved_one(before, after, |state| matches!(state, State::Flags(..))));
        self.channels.note(before, after, call, outcome);
        self.levels.note(before, after, call);
        self.moves.note(before, after);
        if answer == 14 {
            self.note_chain(after, before.running.unwrap());
        }
        if answer != 0 {
            return;
        }
        let waits = |t: usize| before.tasks[t].suspends > 0 && before.tasks[t].state != State::Plain;
        let ended = |t: usize| after.tasks[t].used && after.tasks[t].state == State::Plain;
        let kind = call.kind & 0x7F;
        if matches!(kind, 0x13 | 0x23 | 0x33 | 0x43) {
            self.suspended_given += u64::from((0..32).any(|t| waits(t) && ended(t)));
        }
        match kind {
            0x0B => {
                self.wraps += u64::from(after.tick == 0);
                let due = before.tasks.iter().filter(|task| task.mark == Some(after.tick)).count();
                self.several_due += u64::from(due > 1);
                let turns = |t: usize| before.tasks[t].left <= 1 && before.depth == 0 && before.has_peer(t);
                self.turns += u64::from(before.running.map_or(false, turns));
            }
            0x01 => self.by_default += u64::from(call.numbers[2] == 0 && before.default_quantum != 100),
            0x21 => {
                let mutex = &before.mutexes[call.numbers[0] as usize];
                self.forced += u64::from(mutex.queue.len() > 1);
                let ring = |&t: &usize| before.leads(mutex.holder.unwrap(), t);
                self.forced_on_ring += u64::from(mutex.queue.iter().any(ring));
            }
            0x33 => self.flags.note(before, after, call),
            _ => {}
        }
    }

    fn note_chain(&mut self, after: &Kernel, caller: usize) {
        let chain = after.chain(caller);
        self.longest_chain = self.longest_chain.max(chain.len());
        if after.waits_for_holder(*chain.last().unwrap()).is_some() {
            self.rings += 1;
            self.largest_ring = self.largest_ring.max(chain.len());
        }
    }

    pub fn tell(&self) {
        println!("  longest chain {}, rings closed {} (largest {})", self.longest_chain, self.rings, self.largest_ring);
        println!("  tick wraps {}, ticks with several due {}, calls when locked {}", self.wraps, self.several_due, self.locked);
        println!("  suspended waiters given {}, forced mutex deletes with several waiters {}, on a ring {}", self.suspended_given, self.forced, self.forced_on_ring);
        println!("  tasks created with 0 by another default than 100 {}, turns that a tick ended {}", self.by_default, self.turns);
        self.flags.tell();
        self.channels.tell();
        self.levels.tell();
        self.moves.tell();
        let counts = [&self.channels.counts, &self.levels.counts, &self.moves.counts];
        let mut unmet: Vec<String> = counts.iter().flat_map(|counts| counts.unmet()).collect();
        for (kind, name, _) in KINDS {
            let counts = self.answers.range((kind, 0)..=(kind, u32::MAX));
            let list: Vec<String> = counts.map(|((_, answer), count)| format!("{answer}: {count}")).collect();
            println!("  {kind:02X} {name:17} {}", list.join(", "));
            let missing = possible(kind).iter().filter(|&&answer| !self.answers.contains_key(&(kind, answer)));
            unmet.extend(missing.map(|answer| format!("{name} {answer}")));
        }
        if unmet.is_empty() {
            println!("  every answer that a kind can give was met, and all that is counted of channels, ready levels and moves");
        } else {
            println!("  not met: {}", unmet.join(", "));
        }
    }
}

/// The answers that a kind can give on a sound table.
fn possible(kind: u8) -> &'static [u32] {
    match kind {
        0x01 => &[0, 1, 3, 4, 5],
        0x02 => &[0, 1, 2, 5, 7, 13],
        0x03 => &[0, 1, 2, 4, 5],
        0x04 => &[0, 1, 2, 5, 7, 10],
        0x05 => &[0, 1, 2, 5, 17],
        0x06 => &[0, 5, 6, 7, 20],
        0x07 => &[0, 4, 5, 6, 7],
        0x08 => &[0, 1, 2, 5, 18],
        0x09 => &[0, 5, 10],
        0x0A => &[0, 5, 12],
        0x0B => &[0],
        0x0D => &[0, 4, 5],
        0x10 | 0x20 | 0x30 => &[0, 1, 3, 5],
        0x11 | 0x21 | 0x31 | 0x41 => &[0, 1, 2, 4, 5, 13],
        0x12 | 0x32 | 0x42 => &[0, 1, 2, 4, 5, 6, 7, 8, 14],
        0x13 => &[0, 1, 2, 11],
        0x14 | 0x24 | 0x34 | 0x44 => &[0, 1, 2, 5, 19],
        0x22 => &[0, 1, 2, 4, 5, 6, 7, 8, 10, 14],
        0x23 => &[0, 1, 2, 5, 6, 9],
        0x33 => &[0, 1, 2, 4],
        0x40 => &[0, 1, 3, 4, 5],
        0x43 => &[0, 1, 2, 4, 16],
        0x45 => &[0, 1, 2, 5],
        _ => &[],
    }
}
