//! Whether numbers differ, told by a small table and without sorting them.

/// Numbers above 0. Each stands at the slot of its low bits or at the next free
/// one, so numbers that follow each other are put in at one step each.
pub struct Distinct<const SLOTS: usize> {
    slots: [u32; SLOTS],
}

impl<const SLOTS: usize> Distinct<SLOTS> {
    const FREE: u32 = 0;

    pub fn new() -> Self {
        Distinct {
            slots: [Self::FREE; SLOTS],
        }
    }

    /// Puts a number in; false when it was there. At least one slot must be free.
    pub fn insert(&mut self, number: u32) -> bool {
        let mut slot = number as usize % SLOTS;
        while self.slots[slot] != Self::FREE {
            if self.slots[slot] == number {
                return false;
            }
            slot = (slot + 1) % SLOTS;
        }
        self.slots[slot] = number;
        true
    }
}
