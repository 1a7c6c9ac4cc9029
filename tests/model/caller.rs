//! Random calls, biased to where the paper's rules meet.
mod messages;

use crate::kernel::kinds::{body, KINDS};
use crate::kernel::{Call, Kernel, State, Task, Wanted, GROUPS, LAST_PRIORITY, NUMBERS, OBJECTS, TASKS};
use crate::random::Random;
use crate::tables::some_wanted;
use messages::another_message;

/// What a sequence likes to do.
#[derive(Clone, Copy, PartialEq, Eq)]
enum Likes {
    Anything,
    Chains,
    Flags,
    Messages,
}

/// Which numbers a sequence uses and what it likes to do: few numbers and levels meet more often.
pub struct Caller {
    tasks: usize,
    semaphores: usize,
    mutexes: usize,
    groups: usize,
    channels: usize,
    levels: Vec<u32>,
    guided: usize,
    locks: usize,
    likes: Likes,
    again: Option<(Call, usize)>,
}

fn call(kind: u8, a: usize, b: u32, c: u32) -> Call {
    Call { kind, numbers: [a as u32, b, c, 0, 0, 0] }
}

/// A few base priorities, or now and then each that there is.
fn some_levels(random: &mut Random) -> Vec<u32> {
    if random.chance(10) {
        return (0..=LAST_PRIORITY).collect();
    }
    (0..random.between(1, 6)).map(|_| random.pick(&[0, 1, 5, 5, 7, 10, 30, 62])).collect()
}

fn wait_for_flags(g: usize, block: u32, limit: u32, wanted: Wanted) -> Call {
    let Wanted { mask, test, consume } = wanted;
    Call { kind: 0x32, numbers: [g as u32, block, limit, mask, test as u32, consume.into()] }
}

impl Caller {
    pub fn new(random: &mut Random) -> Caller {
        let likes = match random.below(20) {
            0..=2 => Likes::Chains,
            3..=5 => Likes::Flags,
            6..=9 => Likes::Messages,
            _ => Likes::Anything,
        };
        let deep = likes == Likes::Chains;
        Caller {
            tasks: if likes == Likes::Anything { random.pick(&[3, 5, 8, 20, TASKS]) } else { TASKS },
            semaphores: random.pick(&[1, 2, OBJECTS]),
            mutexes: if deep { OBJECTS } else { random.pick(&[2, 3, 6, OBJECTS]) },
            groups: random.pick(&[1, 2, GROUPS]),
            channels: random.pick(&[1, 2, OBJECTS]),
            levels: some_levels(random),
            guided: if deep { 97 } else { random.pick(&[30, 60, 90]) },
            locks: random.pick(&[0, 1, 5]),
            likes,
            again: None,
        }
    }

    /// The next call for a table.
    pub fn next(&mut self, random: &mut Random, kernel: &Kernel) -> Call {
        if let Some((call, times)) = self.again {
            self.again = if times > 1 { Some((call, times - 1)) } else { None };
            return if call.kind & 0x7F == 0x43 { another_message(call, random) } else { call };
        }
        let mut chosen = if random.chance(2) {
            self.wild(random)
        } else if random.chance(self.guided) {
            self.guided(random, kernel)
        } else {
            self.plain(random)
        };
        if random.chance(1) {
            chosen.kind ^= 0x80;
        }
        if matches!(chosen.kind, 0x0B | 0x13 | 0x33 | 0x43) && random.chance(50) {
            chosen.kind |= 0x80;
        }
        // "those a kind does not use are not looked at"
        if random.chance(5) {
            let uses = body(chosen.kind).map_or(0, |widths| widths.len());
            chosen.numbers.iter_mut().skip(uses).for_each(|n| *n = random.border());
        }
        chosen
    }

    /// Any kind with any numbers.
    fn wild(&mut self, random: &mut Random) -> Call {
        let kind = if random.chance(50) { random.next() as u8 } else { random.pick(&KINDS).0 };
        Call { kind, numbers: random.borders::<NUMBERS>() }
    }

    fn level(&mut self, random: &mut Random) -> u32 {
        if random.chance(1) { 63 } else { random.pick(&self.levels) }
    }

    fn yes_no(&mut self, random: &mut Random) -> u32 {
        if random.chance(2) { 2 } else { random.below(2) as u32 }
    }

    fn limit(&mut self, random: &mut Random) -> u32 {
        if random.chance(50) { 0 } else { random.soon() }
    }

    /// A kind of the list with numbers mostly in range.
    fn plain(&mut self, random: &mut Random) -> Call {
        let t = random.below(self.tasks);
        let s = random.below(self.semaphores);
        let m = random.below(self.mutexes);
        let g = random.below(self.groups);
        let yes_no = self.yes_no(random);
        let limit = self.limit(random);
        match random.below(41) {
            0 | 1 => call(0x01, t, self.level(random), random.pick(&[0, 1, 2, 3, 65535])),
            2 => call(0x02, t, 0, 0),
            3 => call(0x03, t, self.level(random), 0),
            4 => call(0x04, t, 0, 0),
            5 => call(0x05, t, 0, 0),
            6 => call(0x06, 0, 0, 0),
            7 => call(0x07, if random.chance(3) { 0 } else { random.soon() as usize }, 0, 0),
            8 => call(0x08, t, 0, 0),
            9 if random.chance(20 * self.locks) => call(0x09, 0, 0, 0),
            9 | 10 => call(0x0A, 0, 0, 0),
            11 | 12 => call(0x0B, 0, 0, 0),
            13 => call(0x10, s, random.pick(&[0, 0, 1, 2, u32::MAX - 1, u32::MAX]), 0),
            14 => call(0x11, s, yes_no, 0),
            15 => call(0x12, s, yes_no, limit),
            16 => call(0x13, s, 0, 0),
            17 => call(0x14, s, 0, 0),
            18 => call(0x20, m, 0, 0),
            19 => call(0x21, m, yes_no, 0),
            20 | 21 => call(0x22, m, yes_no, limit),
            22 => call(0x23, m, 0, 0),
            23 => call(0x24, m, 0, 0),
            24 => call(0x30, g, if random.chance(50) { 0 } else { random.mask() }, 0),
            25 => call(0x31, g, yes_no, 0),
            26 | 27 => odd_flags(wait_for_flags(g, yes_no, limit, some_wanted(random)), random),
            28 | 29 => odd_flags(call(0x33, g, random.mask(), yes_no), random),
            30 => call(0x0D, random.pick(&[0, 1, 1, 2, 3, 100, 65535, 65536, 65537]), 0, 0),
            31 => call(0x34, g, 0, 0),
            _ => self.plain_message(random),
        }
    }

    /// A call that the table makes interesting; a plain one where it offers nothing.
    fn guided(&mut self, random: &mut Random, kernel: &Kernel) -> Call {
        let found = match (kernel.depth, kernel.running) {
            (1.., _) if random.chance(25) => Some(call(0x0A, 0, 0, 0)),
            (_, None) if self.likes == Likes::Flags && random.chance(50) => self.post_flags(random, kernel),
            (_, None) if self.likes == Likes::Messages && random.chance(50) => self.post_message(random, kernel),
            (_, None) => self.wake(random, kernel),
            (_, Some(_)) if self.likes == Likes::Flags && random.chance(75) => match random.below(10) {
                0..=4 => self.wait_flags(random, kernel),
                5 | 6 => self.post_flags(random, kernel),
                7 => self.reshape(random, kernel),
                _ => self.grow(random, kernel),
            },
            (_, Some(_)) if self.likes == Likes::Messages && random.chance(75) => self.pass_messages(random, kernel),
            (_, Some(runs)) if self.likes == Likes::Chains && random.chance(80) => {
                if random.chance(60) { self.link(random, kernel, runs) } else { self.grow(random, kernel) }
            }
            (_, Some(runs)) => self.any(random, kernel, runs),
        };
        found.unwrap_or_else(|| self.plain(random))
    }

    /// Something of everything.
    fn any(&mut self, random: &mut Random, kernel: &Kernel, runs: usize) -> Option<Call> {
        match random.below(29) {
            0..=6 => self.link(random, kernel, runs),
            7 | 8 => self.grow(random, kernel),
            9 => self.reshape(random, kernel),
            10 | 11 => self.release(random, kernel, runs),
            12 => self.suspend_waiter(random, kernel),
            13 | 14 => self.force(random, kernel),
            15 => self.repeat(random, kernel, runs),
            16 => {
                let empty = |s: usize| kernel.semaphores[s].used && kernel.semaphores[s].count == 0;
                let s = random.pick_from((0..OBJECTS).filter(|&s| empty(s))).unwrap_or_else(|| random.below(self.semaphores));
                Some(call(0x12, s, 1, self.limit(random)))
            }
            17 => Some(call(0x06, 0, 0, 0)),
            18 => self.wake(random, kernel),
            19 => Some(call(0x07, random.soon() as usize, 0, 0)),
            20 | 21 => self.wait_flags(random, kernel),
            22 => self.post_flags(random, kernel),
            23 => Some(call(0x0D, random.between(1, 3), 0, 0)),
            24..=27 => self.pass_messages(random, kernel),
            _ => Some(call(0x0B, 0, 0, 0)),
        }
    }

    /// Takes a free mutex, or waits for one that makes the chain longer or a ring.
    fn link(&mut self, random: &mut Random, kernel: &Kernel, runs: usize) -> Option<Call> {
        let deep = self.likes == Likes::Chains;
        let limit = if deep || random.chance(70) { 0 } else { random.soon() };
        let free = random.pick_from((0..self.mutexes).filter(|&m| kernel.mutexes[m].used && kernel.mutexes[m].holder.is_none()));
        if free.is_some() && (!kernel.holds_any(runs) || random.chance(if deep { 3 } else { 25 })) {
            return free.map(|m| call(0x22, m, 1, limit));
        }
        let others: Vec<(usize, usize)> = (0..OBJECTS)
            .filter_map(|m| kernel.mutexes[m].holder.map(|holder| (m, holder)))
            .filter(|&(_, holder)| holder != runs)
            .collect();
        if others.is_empty() {
            return None;
        }
        let ring = others.iter().copied().filter(|&(_, holder)| kernel.leads(holder, runs));
        let way = if deep && random.chance(90) { 1 } else { random.below(3) };
        let chosen = match way {
            0 => random.pick_from(ring).unwrap_or_else(|| random.pick(&others)),
            1 => others.iter().copied().max_by_key(|&(_, holder)| kernel.chain(holder).len()).unwrap(),
            _ => random.pick(&others),
        };
        Some(call(0x22, chosen.0, 1, limit))
    }

    /// A new task that will run, or a new object.
    fn grow(&mut self, random: &mut Random, kernel: &Kernel) -> Option<Call> {
        let t = random.pick_from((0..self.tasks).filter(|&t| !kernel.tasks[t].used));
        let m = random.pick_from((0..self.mutexes).filter(|&m| !kernel.mutexes[m].used));
        let s = random.pick_from((0..self.semaphores).filter(|&s| !kernel.semaphores[s].used));
        let g = random.pick_from((0..self.groups).filter(|&g| !kernel.groups[g].used));
        let c = random.pick_from((0..self.channels).filter(|&c| !kernel.channels[c].used));
        match (random.below(7), self.likes) {
            (0 | 1, _) => t.map(|t| call(0x01, t, self.level(random), random.pick(&[0, 1, 2]))),
            (2..=4, Likes::Flags) | (4, Likes::Anything) => g.map(|g| call(0x30, g, if random.chance(70) { 0 } else { random.mask() }, 0)),
            (2..=4, Likes::Messages) | (5, _) => c.map(|c| call(0x40, c, random.capacity().into(), 0)),
            (2..=4, _) => m.map(|m| call(0x20, m, 0, 0)),
            _ => s.map(|s| call(0x10, s, random.pick(&[0, 0, 0, 1]), 0)),
        }
    }

    /// A wait for flags that mostly blocks.
    fn wait_flags(&mut self, random: &mut Random, kernel: &Kernel) -> Option<Call> {
        let g = random.pick_from((0..GROUPS).filter(|&g| kernel.groups[g].used))?;
        let mut wanted = some_wanted(random);
        for _ in 0..3 {
            if wanted.met(kernel.groups[g].flags) {
                wanted = some_wanted(random);
            }
        }
        let block = u32::from(random.chance(90));
        let limit = if random.chance(70) { 0 } else { random.soon() };
        Some(wait_for_flags(g, block, limit, wanted))
    }

    /// Posts the flags that one waiter of a group or two of them name, or some of them.
    fn post_flags(&mut self, random: &mut Random, kernel: &Kernel) -> Option<Call> {
        let g = random.pick_from((0..GROUPS).filter(|&g| !kernel.groups[g].queue.is_empty()))?;
        let wanted: Vec<Wanted> = kernel.groups[g].queue.iter().filter_map(|&t| wanted_by(&kernel.tasks[t])).collect();
        let (one, two) = (random.pick(&wanted), random.pick(&wanted));
        let mask = match random.below(4) {
            0 => one.mask | two.mask,
            1 => (one.mask & random.mask()).max(1),
            _ => one.mask,
        };
        let helps = u32::from(one.test.wants_set());
        Some(call(0x33, g, mask, if random.chance(85) { helps } else { 1 - helps }))
    }

    /// Changes the base of a task that waits, or of one that has peers; often to the level of one beside it in its queue.
    fn reshape(&mut self, random: &mut Random, kernel: &Kernel) -> Option<Call> {
        let waits = |t: usize| !matches!(kernel.tasks[t].state, State::Plain | State::Delayed);
        let waiter = random.pick_from((0..TASKS).filter(|&t| waits(t)));
        let any = random.pick_from((0..TASKS).filter(|&t| kernel.tasks[t].used));
        let t = if random.chance(70) { waiter.or(any)? } else { any? };
        let beside = kernel.home(t).and_then(|place| random.pick_from(kernel.queue(place).iter().copied().filter(|&other| other != t)));
        let level = match beside {
            Some(other) if random.chance(50) => kernel.tasks[other].working.into(),
            _ => self.level(random),
        };
        Some(call(0x03, t, level, 0))
    }

    /// Posts what the running task holds, or gives up a wait for it.
    fn release(&mut self, random: &mut Random, kernel: &Kernel, runs: usize) -> Option<Call> {
        let own = random.pick_from((0..OBJECTS).filter(|&m| kernel.mutexes[m].holder == Some(runs)));
        own.map(|m| call(0x23, m, 0, 0)).or_else(|| self.wake(random, kernel))
    }

    fn suspend_waiter(&mut self, random: &mut Random, kernel: &Kernel) -> Option<Call> {
        let stands = |t: usize| kernel.tasks[t].used && kernel.tasks[t].state != State::Plain;
        let waiter = random.pick_from((0..TASKS).filter(|&t| stands(t)))?;
        Some(call(if random.chance(75) { 0x04 } else { 0x02 }, waiter, 0, 0))
    }

    /// Deletes an object with waiters, mostly forced.
    fn force(&mut self, random: &mut Random, kernel: &Kernel) -> Option<Call> {
        let waiting = |queue: &Vec<usize>| !queue.is_empty();
        let m = random.pick_from((0..OBJECTS).filter(|&m| waiting(&kernel.mutexes[m].queue)));
        let s = random.pick_from((0..OBJECTS).filter(|&s| waiting(&kernel.semaphores[s].queue)));
        let g = random.pick_from((0..GROUPS).filter(|&g| waiting(&kernel.groups[g].queue)));
        let c = random.pick_from((0..OBJECTS).filter(|&c| waiting(&kernel.channels[c].queue)));
        let force = u32::from(random.chance(80));
        match random.below(6) {
            0 => s.map(|s| call(0x11, s, force, 0)),
            1 => g.map(|g| call(0x31, g, force, 0)),
            2 => c.map(|c| call(0x41, c, force, 0)),
            _ => m.map(|m| call(0x21, m, force, 0)),
        }
    }

    /// Many of one call, up to and beyond its border.
    fn repeat(&mut self, random: &mut Random, kernel: &Kernel, runs: usize) -> Option<Call> {
        let own = random.pick_from((0..OBJECTS).filter(|&m| kernel.mutexes[m].holder == Some(runs)));
        let waiter = random.pick_from((0..TASKS).filter(|&t| kernel.tasks[t].used && t != runs));
        let chosen = match random.below(10) {
            0..=2 => call(0x22, own?, random.below(2) as u32, 0),
            3 | 4 => call(0x04, waiter?, 0, 0),
            5 => call(0x05, waiter?, 0, 0),
            6 if self.locks > 0 => call(0x09, 0, 0, 0),
            7 => call(0x0A, 0, 0, 0),
            8 => call(0x23, own?, 0, 0),
            _ => call(0x0B, 0, 0, 0),
        };
        let times = if random.chance(10) { random.between(245, 255) } else { random.between(1, 5) };
        self.again = Some((chosen, times));
        Some(chosen)
    }

    /// A call that may make a task able, or that changes who will be next.
    fn wake(&mut self, random: &mut Random, kernel: &Kernel) -> Option<Call> {
        let tasks = |wanted: &dyn Fn(&Task) -> bool| (0..TASKS).filter(|&t| wanted(&kernel.tasks[t])).collect::<Vec<_>>();
        let s = random.pick_from((0..OBJECTS).filter(|&s| !kernel.semaphores[s].queue.is_empty()));
        let m = random.pick_from((0..OBJECTS).filter(|&m| !kernel.mutexes[m].queue.is_empty()));
        let g = random.pick_from((0..GROUPS).filter(|&g| !kernel.groups[g].queue.is_empty()));
        let c = random.pick_from((0..OBJECTS).filter(|&c| !kernel.channels[c].queue.is_empty()));
        match random.below(15) {
            0 => random.pick_from(tasks(&|t| t.suspends > 0).into_iter()).map(|t| call(0x05, t, 0, 0)),
            1 => random.pick_from(tasks(&|t| t.state == State::Delayed).into_iter()).map(|t| call(0x08, t, 0, 0)),
            2 => s.map(|s| call(0x13, s, 0, 0)),
            3 => s.map(|s| call(0x14, s, 0, 0)),
            4 => m.map(|m| call(0x24, m, 0, 0)),
            5 if random.chance(30) => self.force(random, kernel),
            6 | 7 => self.grow(random, kernel),
            8 => self.post_flags(random, kernel),
            9 => g.map(|g| call(0x34, g, 0, 0)),
            10 => self.post_message(random, kernel),
            11 => c.map(|c| call(0x44, c, 0, 0)),
            12 => self.reshape(random, kernel),
            _ => Some(call(0x0B, 0, 0, 0)),
        }
    }
}

/// Now and then a mask of 0, a fifth test or a byte above 1.
fn odd_flags(mut call: Call, random: &mut Random) -> Call {
    let at = random.between(1, body(call.kind).map_or(1, |widths| widths.len() - 1));
    if random.chance(5) {
        call.numbers[at] = random.pick(&[0, 2, 3, 4, 255, 256]);
    }
    call
}

fn wanted_by(task: &Task) -> Option<Wanted> {
    match task.state {
        State::Flags(_, wanted) => Some(wanted),
        _ => None,
    }
}
