//! Damage to a table: of its bytes, and of its fields in such a way that often one rule alone breaks or
//! another sound table comes out.

use crate::image::{COLUMNS, IMAGE};
use crate::kernel::{level_bit, Kernel, Place, State, Task, GROUPS, LEVELS, MOST_MESSAGES, OBJECTS, TASKS};
use crate::random::Random;
use crate::tables::{arrange, settle, some_wanted};

/// A damaged copy of the image; `other` is a second image to take bytes from.
pub fn damaged(random: &mut Random, kernel: &Kernel, other: &[u8]) -> Vec<u8> {
    match random.below(11) {
        0 => damaged_bytes(random, kernel.encode(), other),
        1 | 2 => damaged_columns(random, kernel.encode()),
        3 => stale_chain(random, kernel.clone()).encode(),
        _ => damaged_fields(random, kernel.clone()).encode(),
    }
}

fn damaged_bytes(random: &mut Random, mut image: Vec<u8>, other: &[u8]) -> Vec<u8> {
    for _ in 0..random.between(1, 3) {
        let at = random.below(IMAGE);
        match random.below(6) {
            0 => image[at] ^= 1 << random.below(8),
            1 => image[at] = random.pick(&[0, 1, 2, 3, 16, 31, 32, 33, 62, 63, 250, 251, 255]),
            2 => image.swap(at, random.below(IMAGE)),
            3 => image[at] = image[at].wrapping_add(1),
            4 => {
                let to = (at + random.between(2, 32)).min(IMAGE);
                image[at..to].rotate_right(1); // in a queue often a gap and nobody lost
            }
            _ => {
                let to = (at + random.between(1, 64)).min(IMAGE);
                image[at..to].copy_from_slice(&other[at..to]);
            }
        }
    }
    image
}

/// Numbers of some columns, each column as likely as any other, however few its bytes; often one that is not 0.
fn damaged_columns(random: &mut Random, mut image: Vec<u8>) -> Vec<u8> {
    for _ in 0..random.between(1, 2) {
        let column = random.pick(COLUMNS);
        let filled = random.pick_from((0..column.count).filter(|&i| column.get(&image, i) != 0));
        let any = random.below(column.count);
        let i = if random.chance(50) { filled.unwrap_or(any) } else { any };
        let n = column.get(&image, i);
        let other = column.get(&image, random.below(column.count));
        let (border, small, bit) = (random.border().into(), random.between(2, 8) as u64, 1 << random.below(64));
        column.put(&mut image, i, random.pick(&[0, 1, n.wrapping_add(1), n.wrapping_sub(1), n ^ bit, other, border, small]));
    }
    image
}

/// Another working priority all along a chain, the queues ordered by it: on a ring each task then has the
/// least of its base and its waiters' working priorities, and yet not the one worked out afresh.
fn stale_chain(random: &mut Random, mut kernel: Kernel) -> Kernel {
    let waiter = random.pick_from((0..TASKS).filter(|&t| kernel.waits_for_holder(t).is_some()));
    let mut chain = kernel.chain(waiter.unwrap_or(0));
    if random.chance(50) {
        chain = kernel.chain(*chain.last().unwrap()); // the whole ring, if there is one
    }
    let level = random.pick(&[0, 1, 4, kernel.tasks[chain[0]].working.saturating_sub(1), 62]);
    for t in chain.into_iter().filter(|&t| kernel.tasks[t].used).collect::<Vec<_>>() {
        kernel.tasks[t].working = level;
    }
    arrange(random, &mut kernel);
    kernel
}

fn damaged_fields(random: &mut Random, mut kernel: Kernel) -> Kernel {
    for _ in 0..random.pick(&[1, 1, 1, 2, 3]) {
        match random.below(14) {
            0..=3 => damage_task(random, &mut kernel),
            4 => damage_semaphore(random, &mut kernel),
            5 | 6 => damage_mutex(random, &mut kernel),
            7 | 8 => damage_queue(random, &mut kernel),
            9 => damage_flags(random, &mut kernel),
            10 | 11 => damage_channel(random, &mut kernel),
            12 => damage_ready(random, &mut kernel),
            _ => damage_rest(random, &mut kernel),
        }
    }
    if random.chance(50) {
        settle(random, &mut kernel);
    } else if random.chance(60) {
        kernel.ready = kernel.ready_levels(); // so that another rule breaks alone
    }
    if random.chance(15) {
        // a rule that settling would mend, broken alone
        match random.below(3) {
            0 => damage_queue(random, &mut kernel),
            1 => damage_ready(random, &mut kernel),
            _ => damage_rest(random, &mut kernel),
        }
    }
    kernel
}

/// A task in use, or now and then any.
fn some_task(random: &mut Random, kernel: &Kernel) -> usize {
    let used = random.pick_from((0..TASKS).filter(|&t| kernel.tasks[t].used));
    if random.chance(90) { used.unwrap_or(0) } else { random.below(TASKS) }
}

fn damage_task(random: &mut Random, kernel: &mut Kernel) {
    let t = some_task(random, kernel);
    let tick = kernel.tick;
    let task = &mut kernel.tasks[t];
    match random.below(13) {
        0 => task.base = random.pick(&[0, 1, 5, 7, 62, 63, 255]),
        1 => task.working = random.pick(&[0, 1, 5, 7, 62, 63, 255]),
        2 => task.working = if random.chance(50) { task.base } else { task.working.wrapping_sub(1) },
        3 => task.suspends = random.pick(&[0, 1, 249, 250, 251, 255]),
        4 => {
            task.quantum = random.pick(&[0, 1, 256, 65535]);
            if random.chance(50) {
                task.left = task.left.min(task.quantum);
            }
        }
        5 => task.left = random.pick(&[0, 1, task.quantum, task.quantum.wrapping_add(1), 65535]),
        6 | 7 => task.state = some_state(random),
        8 | 9 => {
            let near = [tick, tick.wrapping_add(1), tick.wrapping_sub(1), 0, u32::MAX];
            task.mark = if random.chance(25) { None } else { Some(random.pick(&near)) };
        }
        10 => task.outcome = random.pick(&[0, 1, 2, 3, 4, 255]),
        11 => task.message = random.message(),
        _ => free_or_use(random, task),
    }
}

fn free_or_use(random: &mut Random, task: &mut Task) {
    if random.chance(50) {
        let quantum = if task.used { 0 } else { random.pick(&[0, 1, 2]) };
        *task = Task { used: !task.used, quantum, ..Task::default() };
    } else {
        task.used = !task.used;
    }
}

fn some_state(random: &mut Random) -> State {
    match random.below(10) {
        0 => State::Plain,
        1 => State::Delayed,
        2 | 3 => State::Semaphore(random.below(OBJECTS)),
        4 | 5 => State::Flags(random.below(GROUPS), some_wanted(random)),
        6 | 7 => State::Channel(random.below(OBJECTS)),
        _ => State::Mutex(random.below(OBJECTS)),
    }
}

fn damage_semaphore(random: &mut Random, kernel: &mut Kernel) {
    let waited = random.pick_from((0..OBJECTS).filter(|&s| !kernel.semaphores[s].queue.is_empty()));
    let s = if random.chance(60) { waited.unwrap_or(0) } else { random.below(OBJECTS) };
    let semaphore = &mut kernel.semaphores[s];
    match random.below(3) {
        0 => semaphore.used = !semaphore.used,
        _ => semaphore.count = random.pick(&[0, 1, 256, u32::MAX]),
    }
}

fn damage_mutex(random: &mut Random, kernel: &mut Kernel) {
    let waited = random.pick_from((0..OBJECTS).filter(|&m| !kernel.mutexes[m].queue.is_empty()));
    let m = if random.chance(60) { waited.unwrap_or(0) } else { random.below(OBJECTS) };
    let waiter = kernel.mutexes[m].queue.first().copied();
    let any = some_task(random, kernel);
    let mutex = &mut kernel.mutexes[m];
    match random.below(6) {
        0 => mutex.used = !mutex.used,
        1 => mutex.nesting = random.pick(&[0, 1, 2, 250, 251, 255]),
        2 => mutex.holder = waiter,
        3 => {
            mutex.holder = None;
            if random.chance(70) {
                mutex.nesting = 0;
            }
        }
        _ => {
            mutex.holder = Some(any);
            mutex.nesting = mutex.nesting.max(1);
        }
    }
}

/// A group, or what one of its waiters wants.
fn damage_flags(random: &mut Random, kernel: &mut Kernel) {
    let waited = random.pick_from((0..GROUPS).filter(|&g| !kernel.groups[g].queue.is_empty()));
    let g = if random.chance(60) { waited.unwrap_or(0) } else { random.below(GROUPS) };
    let waiter = random.pick_from(kernel.groups[g].queue.iter().copied());
    match (random.below(4), waiter) {
        (0, _) => kernel.groups[g].used = !kernel.groups[g].used,
        (1, _) => kernel.groups[g].flags = random.pick(&[0, 1, 256, u32::MAX]),
        (_, Some(t)) => {
            let mut wanted = some_wanted(random);
            wanted.mask = random.pick(&[0, 0, 1, u32::MAX, wanted.mask]);
            kernel.tasks[t].state = State::Flags(g, wanted);
        }
        _ => {}
    }
}

/// A channel: in use or not, its capacity, or its messages.
fn damage_channel(random: &mut Random, kernel: &mut Kernel) {
    let waited = random.pick_from((0..OBJECTS).filter(|&c| !kernel.channels[c].queue.is_empty()));
    let filled = random.pick_from((0..OBJECTS).filter(|&c| !kernel.channels[c].messages.is_empty()));
    let any = random.below(OBJECTS);
    let c = random.pick(&[waited, filled, None]).unwrap_or(any);
    let channel = &mut kernel.channels[c];
    let held = channel.messages.len();
    match random.below(7) {
        0 => channel.used = !channel.used,
        1 => channel.capacity = random.pick(&[0, 1, 31, 32, 33, 255]),
        2 => channel.capacity = random.pick(&[held as u8, (held as u8).wrapping_sub(1)]),
        3 if held > 0 => channel.messages.truncate(held - 1),
        4 if held > 0 => channel.messages[random.below(held)] = random.message(),
        _ if held < MOST_MESSAGES => channel.messages.insert(random.below(held + 1), random.message()),
        _ => channel.messages.clear(),
    }
}

fn damage_queue(random: &mut Random, kernel: &mut Kernel) {
    let filled = random.pick_from(Kernel::places().filter(|&place| !kernel.queue(place).is_empty()));
    let any = random.pick_from(Kernel::places()).unwrap();
    let place = if random.chance(85) { filled.unwrap_or(Place::Able) } else { any };
    let more = some_task(random, kernel);
    let queue = kernel.queue_mut(place);
    let at = random.below(queue.len().max(1));
    match random.below(5) {
        0 if !queue.is_empty() => {
            queue.remove(at);
        }
        1 if queue.len() < TASKS => queue.insert(at, more),
        2 if !queue.is_empty() && queue.len() < TASKS => queue.insert(at, queue[at]),
        3 if !queue.is_empty() => queue[at] = more,
        _ if queue.len() > 1 => {
            let with = random.below(queue.len());
            queue.swap(at, with);
        }
        _ => {}
    }
}

/// The ready word: a bit, one that is set, all of them moved or in the other order, or with the levels of tasks that are not able.
fn damage_ready(random: &mut Random, kernel: &mut Kernel) {
    let level = random.pick_from((0..LEVELS).filter(|&level| kernel.ready & level_bit(level) != 0));
    let used = kernel.tasks.iter().filter(|task| task.used && task.working < LEVELS);
    let all = used.fold(0, |word, task| word | level_bit(task.working));
    match random.below(8) {
        0 | 1 => kernel.ready ^= 1 << random.below(64),
        2 | 3 => kernel.ready &= !level.map_or(0, level_bit),
        4 => kernel.ready = random.pick(&[kernel.ready << 1, kernel.ready >> 1, kernel.ready | 1]),
        5 => kernel.ready = kernel.ready.reverse_bits(),
        6 => kernel.ready = all,
        _ => kernel.ready = random.pick(&[0, u64::MAX, !kernel.ready, kernel.ready.swap_bytes()]),
    }
}

fn damage_rest(random: &mut Random, kernel: &mut Kernel) {
    let mark = random.pick_from(kernel.tasks.iter().filter_map(|task| task.mark));
    let able = random.pick_from(kernel.able.iter().copied());
    match random.below(7) {
        0 => kernel.tick = mark.unwrap_or(7),
        1 => kernel.tick = random.tick(),
        2 => kernel.depth = random.pick(&[0, 1, 249, 250, 251, 255]),
        3 => kernel.running = None,
        4 => kernel.running = able,
        5 => kernel.default_quantum = random.pick(&[0, 0, 1, 256, 65535]),
        _ => kernel.running = Some(random.below(TASKS)),
    }
}
