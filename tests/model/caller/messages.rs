//! Random calls for channels.
use super::{call, Caller};
use crate::kernel::{Call, Channel, Kernel, OBJECTS};
use crate::random::Random;

/// The same post with another message, to either end.
pub fn another_message(mut post: Call, random: &mut Random) -> Call {
    post.numbers[1] = random.message();
    post.numbers[2] = random.below(2) as u32;
    post
}

fn pick_channel(random: &mut Random, kernel: &Kernel, like: impl Fn(&Channel) -> bool) -> Option<usize> {
    random.pick_from((0..OBJECTS).filter(|&c| like(&kernel.channels[c])))
}

impl Caller {
    /// A kind of theirs with numbers mostly in range.
    pub(super) fn plain_message(&mut self, random: &mut Random) -> Call {
        let c = random.below(self.channels);
        let yes_no = self.yes_no(random);
        match random.below(9) {
            0 | 1 => call(0x40, c, if random.chance(8) { random.border() } else { random.capacity().into() }, 0),
            2 => call(0x41, c, yes_no, 0),
            3 | 4 => call(0x42, c, yes_no, self.limit(random)),
            5 | 6 => call(0x43, c, random.message(), yes_no),
            7 => call(0x44, c, 0, 0),
            _ => call(0x45, c, 0, 0),
        }
    }

    /// A call that the channels make interesting, or one that makes more of them or moves their waiters.
    pub(super) fn pass_messages(&mut self, random: &mut Random, kernel: &Kernel) -> Option<Call> {
        match random.below(12) {
            0..=3 => self.wait_message(random, kernel),
            4..=6 => self.post_message(random, kernel),
            7 => self.fill(random, kernel),
            8 => pick_channel(random, kernel, |channel| !channel.messages.is_empty()).map(|c| call(0x45, c, 0, 0)),
            9 => self.reshape(random, kernel),
            _ => self.grow(random, kernel),
        }
    }

    /// Waits for a message, where there are some or where there are none.
    fn wait_message(&mut self, random: &mut Random, kernel: &Kernel) -> Option<Call> {
        let takes = random.chance(40);
        let c = pick_channel(random, kernel, |channel| channel.used && channel.messages.is_empty() != takes)?;
        let limit = if random.chance(60) { 0 } else { random.soon() };
        Some(call(0x42, c, u32::from(random.chance(90)), limit))
    }

    /// Posts where tasks wait, where there are messages, or anywhere.
    pub(super) fn post_message(&mut self, random: &mut Random, kernel: &Kernel) -> Option<Call> {
        let way = random.below(4);
        let c = pick_channel(random, kernel, |channel| match way {
            0 | 1 => !channel.queue.is_empty(),
            2 => !channel.messages.is_empty(),
            _ => channel.used,
        })?;
        Some(call(0x43, c, random.message(), random.below(2) as u32))
    }

    /// Posts up to the capacity, and often beyond it.
    fn fill(&mut self, random: &mut Random, kernel: &Kernel) -> Option<Call> {
        let c = pick_channel(random, kernel, |channel| channel.used)?;
        let channel = &kernel.channels[c];
        let room = usize::from(channel.capacity) - channel.messages.len();
        let post = call(0x43, c, random.message(), random.below(2) as u32);
        let more = (room + random.below(3)).saturating_sub(1);
        self.again = if more > 0 { Some((post, more)) } else { None };
        Some(post)
    }
}
