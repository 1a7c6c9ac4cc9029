//! Random sound tables, built directly: also such as no short sequence of calls reaches.
use crate::kernel::{Channel, Group, Kernel, Mutex, Semaphore, State, Task, Test, Wanted, GROUPS, LAST_PRIORITY, MOST, OBJECTS, TASKS};
use crate::random::Random;

/// A sound table with tasks in every state, chains and rings.
pub fn table(random: &mut Random) -> Kernel {
    let mut kernel = Kernel::fresh();
    kernel.tick = random.tick();
    kernel.default_quantum = random.quantum();
    let crowd = random.pick(&[10, 40, 80, 100]);
    let levels: Vec<u8> = if random.chance(15) {
        (0..=LAST_PRIORITY as u8).collect()
    } else {
        (0..random.between(1, 5)).map(|_| random.pick(&[0, 1, 2, 5, 20, 40, 61, 62])).collect()
    };
    for t in 0..TASKS {
        if random.chance(crowd) {
            kernel.tasks[t] = some_task(random, &levels);
        }
    }
    let used: Vec<usize> = (0..TASKS).filter(|&t| kernel.tasks[t].used).collect();
    for i in 0..OBJECTS {
        if random.chance(crowd) {
            let count = random.pick(&[0, 0, 1, 2, u32::MAX - 1, u32::MAX]);
            kernel.semaphores[i] = Semaphore { used: true, count, queue: vec![] };
        }
        if random.chance(crowd.max(30)) {
            kernel.mutexes[i] = some_mutex(random, &used);
        }
        if i < GROUPS && random.chance(crowd) {
            let flags = if random.chance(30) { 0 } else { random.mask() };
            kernel.groups[i] = Group { used: true, flags, queue: vec![] };
        }
        if random.chance(crowd) {
            kernel.channels[i] = some_channel(random);
        }
    }
    for &t in &used {
        some_state(random, &mut kernel, t);
    }
    if random.chance(50) && used.len() > 2 {
        long_chain(random, &mut kernel, &used);
    }
    kernel.depth = if random.chance(70) { 0 } else { random.pick(&[1, 1, 2, MOST - 1, MOST]) };
    settle(random, &mut kernel);
    kernel
}

fn some_task(random: &mut Random, levels: &[u8]) -> Task {
    let quantum = random.quantum();
    let left = random.pick(&[0, 1, quantum, quantum]).min(quantum);
    let suspends = random.pick(&[0, 0, 0, 0, 0, 0, 1, 2, MOST - 1, MOST]);
    let base = random.pick(levels);
    let outcome = random.below(4) as u8;
    let message = if random.chance(30) { 0 } else { random.message() };
    Task { used: true, base, working: base, suspends, quantum, left, state: State::Plain, mark: None, outcome, message }
}

fn some_mutex(random: &mut Random, used: &[usize]) -> Mutex {
    let held = !used.is_empty() && random.chance(75);
    let holder = if held { Some(random.pick(used)) } else { None };
    let nesting = if held { random.pick(&[1, 1, 1, 2, 3, MOST - 1, MOST]) } else { 0 };
    Mutex { used: true, holder, nesting, queue: vec![] }
}

/// A channel that is empty, full, or in between.
fn some_channel(random: &mut Random) -> Channel {
    let capacity = random.capacity();
    let most = usize::from(capacity);
    let held = random.pick(&[0, 0, 1, 2, most / 2, most - 1, most]).min(most);
    let messages = (0..held).map(|_| random.message()).collect();
    Channel { used: true, capacity, messages, queue: vec![] }
}

fn some_state(random: &mut Random, kernel: &mut Kernel, t: usize) {
    let state = match random.below(15) {
        0 => Some(State::Delayed),
        1 | 2 => random.pick_from((0..OBJECTS).filter(|&s| kernel.semaphores[s].used)).map(State::Semaphore),
        3..=6 => {
            let open = |m: usize| kernel.mutexes[m].holder.is_some() && kernel.mutexes[m].holder != Some(t);
            random.pick_from((0..OBJECTS).filter(|&m| open(m))).map(State::Mutex)
        }
        7..=9 => {
            let wanted = some_wanted(random);
            random.pick_from((0..GROUPS).filter(|&g| kernel.groups[g].used)).map(|g| State::Flags(g, wanted))
        }
        10 | 11 => random.pick_from((0..OBJECTS).filter(|&c| kernel.channels[c].used)).map(State::Channel),
        _ => None,
    };
    wait_in(random, kernel, t, state.unwrap_or(State::Plain));
}

/// What a wait for flags may name.
pub fn some_wanted(random: &mut Random) -> Wanted {
    let test = random.pick(&[Test::AllSet, Test::AnySet, Test::AllClear, Test::AnyClear]);
    Wanted { mask: random.mask(), test, consume: random.chance(60) }
}

fn wait_in(random: &mut Random, kernel: &mut Kernel, t: usize, state: State) {
    let marked = match state {
        State::Plain => false,
        State::Delayed => true,
        _ => random.chance(50),
    };
    kernel.tasks[t].state = state;
    kernel.tasks[t].mark = if marked { Some(kernel.tick.wrapping_add(random.soon())) } else { None };
    match state {
        State::Semaphore(s) => kernel.semaphores[s].count = 0,
        State::Channel(c) => kernel.channels[c].messages.clear(),
        _ => {}
    }
}

/// Makes some tasks a chain or a ring, by a mutex for each.
fn long_chain(random: &mut Random, kernel: &mut Kernel, used: &[usize]) {
    let mut tasks = used.to_vec();
    random.shuffle(&mut tasks);
    let length = random.between(2, OBJECTS.min(tasks.len()));
    let mut mutexes: Vec<usize> = (0..OBJECTS).collect();
    random.shuffle(&mut mutexes);
    let holder = |i: usize| tasks[i % length];
    for i in 0..length {
        kernel.mutexes[mutexes[i]] = Mutex { used: true, holder: Some(holder(i)), nesting: 1, queue: vec![] };
    }
    let ring = random.chance(40);
    for i in 0..length {
        let state = if i + 1 < length || ring { State::Mutex(mutexes[(i + 1) % length]) } else { State::Plain };
        wait_in(random, kernel, holder(i), state);
    }
    if let Some(&more) = tasks.get(length) {
        wait_in(random, kernel, more, State::Mutex(mutexes[0]));
    }
    for &t in used {
        if kernel.waits_for_holder(t) == Some(t) {
            wait_in(random, kernel, t, State::Plain); // its mutex has come into its own hands
        }
    }
}

/// Works out what follows from the other fields: working priorities, queues, the running task, the ready word.
pub fn settle(random: &mut Random, kernel: &mut Kernel) {
    let afresh = kernel.all_afresh();
    for t in (0..TASKS).filter(|&t| kernel.tasks[t].used).collect::<Vec<_>>() {
        kernel.tasks[t].working = afresh[t];
    }
    arrange(random, kernel);
}

/// Works out queues, the running task and the ready word from the states and the working priorities as they are.
pub fn arrange(random: &mut Random, kernel: &mut Kernel) {
    for place in Kernel::places() {
        kernel.queue_mut(place).clear();
    }
    let mut order: Vec<usize> = (0..TASKS).collect();
    random.shuffle(&mut order);
    order.sort_by_key(|&t| kernel.tasks[t].working);
    for t in order {
        if let Some(home) = kernel.home(t) {
            kernel.queue_mut(home).push(t);
        }
    }
    kernel.running = kernel.able.first().copied();
    if kernel.depth > 0 {
        let able = kernel.able.clone();
        kernel.running = if able.is_empty() || random.chance(15) { None } else { Some(random.pick(&able)) };
    }
    kernel.ready = kernel.ready_levels();
}

/// Where a sequence of calls starts.
pub fn start(random: &mut Random) -> Kernel {
    match random.below(10) {
        0..=5 => Kernel::fresh(),
        6 | 7 => Kernel { tick: random.tick(), default_quantum: random.quantum(), ..Kernel::fresh() },
        _ => table(random),
    }
}
