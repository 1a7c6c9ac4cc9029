//! Flag groups.
use super::calls::{number, refuse, yes_no, Answer};
use super::{Group, Kernel, Place, State, Test, Wanted, GROUPS};

impl Test {
    /// "one of four tests: all set, any set, all clear, any clear"; "a fifth test gets 4"
    pub fn from_number(n: u32) -> Option<Test> {
        [Test::AllSet, Test::AnySet, Test::AllClear, Test::AnyClear].get(n as usize).copied()
    }

    pub fn wants_set(self) -> bool {
        matches!(self, Test::AllSet | Test::AnySet)
    }
}

fn is_set(flags: u32, n: u32) -> bool {
    flags >> n & 1 == 1
}

impl Wanted {
    fn named(&self) -> impl Iterator<Item = u32> {
        let mask = self.mask;
        (0..32).filter(move |&n| is_set(mask, n))
    }

    pub fn met(&self, flags: u32) -> bool {
        let right = |n| is_set(flags, n) == self.test.wants_set();
        match self.test {
            Test::AllSet | Test::AllClear => self.named().all(right),
            Test::AnySet | Test::AnyClear => self.named().any(right),
        }
    }

    /// "it may consume the flags that met the test": those of the mask that are as the test wants them.
    pub fn consumed(&self, flags: u32) -> u32 {
        let right = |n: &u32| self.consume && is_set(flags, *n) == self.test.wants_set();
        self.named().filter(right).map(|n| 1 << n).sum()
    }
}

impl Kernel {
    fn group(&self, n: u32) -> Result<usize, u32> {
        let g = number(n, GROUPS)?;
        refuse(!self.groups[g].used, 2)?;
        Ok(g)
    }

    /// "8 groups of 32 flags, given at creation"
    pub(super) fn group_create(&mut self, n: u32, flags: u32) -> Answer {
        let g = number(n, GROUPS)?;
        refuse(self.groups[g].used, 3)?;
        self.groups[g] = Group { used: true, flags, queue: vec![] };
        Ok(0)
    }

    pub(super) fn group_delete(&mut self, n: u32, force: u32) -> Answer {
        let g = self.group(n)?;
        let forced = yes_no(force)?;
        refuse(!forced && !self.groups[g].queue.is_empty(), 13)?;
        self.send_off_all(Place::Group(g));
        self.groups[g] = Group::default();
        Ok(0)
    }

    /// "Refusals: a mask of 0 or a fifth test gets 4"; "8, 7 [..] as for semaphores"
    pub(super) fn group_wait(&mut self, n: u32, block: u32, limit: u32, mask: u32, test: u32, consume: u32) -> Answer {
        let caller = self.caller()?;
        let g = self.group(n)?;
        let blocking = yes_no(block)?;
        refuse(mask == 0, 4)?;
        let test = Test::from_number(test).ok_or(4u32)?;
        let wanted = Wanted { mask, test, consume: yes_no(consume)? };
        let flags = self.groups[g].flags;
        if wanted.met(flags) {
            self.groups[g].flags = flags ^ wanted.consumed(flags);
            self.tasks[caller].outcome = 0;
            return Ok(0);
        }
        refuse(!blocking, 8)?;
        refuse(self.depth > 0, 7)?;
        self.block(caller, State::Flags(g, wanted), limit);
        Ok(14)
    }

    /// "Post sets or clears the flags of a mask. Waiters are tested from the first of the queue against the
    /// flags as the post left them; the consumed flags of all who were woken are then turned over together."
    /// "Flags turned over by consuming wake nobody."
    pub(super) fn group_post(&mut self, n: u32, mask: u32, on: u32) -> Answer {
        let g = self.group(n)?;
        refuse(mask == 0, 4)?;
        let before = self.groups[g].flags;
        let left = if yes_no(on)? { before | mask } else { before & !mask };
        let mut over = 0;
        for t in self.groups[g].queue.clone() {
            if let State::Flags(_, wanted) = self.tasks[t].state {
                if wanted.met(left) {
                    over |= wanted.consumed(left);
                    self.end_wait(t, 0);
                }
            }
        }
        self.groups[g].flags = left ^ over;
        Ok(0)
    }

    pub(super) fn group_abort(&mut self, n: u32) -> Answer {
        let g = self.group(n)?;
        self.abort(Place::Group(g))
    }
}
