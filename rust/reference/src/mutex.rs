//! A mutex: a queue of actors, of which the first owns it. An actor may have locked it more than once, and
//! has to unlock it as often.

/// An actor in the queue.
#[derive(Clone, Copy, PartialEq, Eq, Debug, Default)]
pub struct Queued {
    /// The actor.
    pub actor: u8,
    /// Its depth: how many Unlocks it takes to leave.
    pub depth: u8,
}

/// A mutex by its actors. No list is kept: an actor's place in the queue is how many are ahead of it.
#[derive(Clone, Copy, PartialEq, Eq, Debug, Default)]
pub struct Mutex {
    /// The actors queued, bit by bit.
    queued: u8,
    /// By actor its depth; 0 where it is not queued.
    depths: [u8; 8],
    /// By actor those queued ahead of it, bit by bit; none where it is not queued.
    ahead: [u8; 8],
}

impl Mutex {
    /// The actors queued and their depths, the owner first.
    pub fn queue(&self) -> impl ExactSizeIterator<Item = Queued> + use<> {
        let mut queue = [Queued::default(); 8];
        for (actor, (&depth, ahead)) in self.depths.iter().zip(self.ahead).enumerate() {
            if depth > 0 {
                let actor = actor as u8;
                queue[ahead.count_ones() as usize] = Queued { actor, depth };
            }
        }
        queue.into_iter().take(self.queued.count_ones() as usize)
    }

    /// Whether `actor` owns the mutex.
    pub fn owned_by(&self, actor: usize) -> bool {
        self.depths[actor] > 0 && self.ahead[actor] == 0
    }

    /// Lock: 1 more for `actor`. Whoever is not queued joins behind all that are.
    pub fn lock(&mut self, actor: usize) {
        if self.depths[actor] == 0 {
            self.ahead[actor] = self.queued;
            self.queued |= 1 << actor;
        }
        self.depths[actor] += 1;
    }

    /// Unlock: 1 less for `actor`, owner or not, if it is queued. At 0 it is ahead of nobody.
    pub fn unlock(&mut self, actor: usize) {
        match self.depths[actor] {
            0 => return,
            depth => self.depths[actor] = depth - 1,
        }
        if self.depths[actor] == 0 {
            let others = !(1 << actor);
            self.queued &= others;
            self.ahead = self.ahead.map(|ahead| ahead & others);
            self.ahead[actor] = 0;
        }
    }
}
