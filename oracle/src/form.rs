//! The form of a state, and of sizes, in a line: the fields in their order. One
//! table serves both ways, so what is shown is what can be put there again.

use crate::frame::{Frame, TurnedDown};
use crate::list::List;
use crate::sizes::Sizes;
use crate::state::{ReadEntry, State, WriteEntry};

pub fn read_sizes(frame: &mut Frame) -> Result<Sizes, TurnedDown> {
    let mut read = Sizes::default();
    sizes(frame, &mut read)?;
    Ok(read)
}

pub fn read_state(frame: &mut Frame) -> Result<State, TurnedDown> {
    let mut read = State::default();
    state(frame, &mut read)?;
    Ok(read)
}

pub fn show_state(shown: &State, bytes: &mut Vec<u8>) {
    state(bytes, &mut shown.clone()).expect("every state has a form");
}

fn state(way: &mut impl Way, state: &mut State) -> Result<(), TurnedDown> {
    sizes(way, &mut state.sizes)?;
    way.mark(&mut state.running)?;
    way.field(1, &mut state.write_count)?;
    way.field(8, &mut state.next_epoch)?;
    way.list(1, &mut state.reads, read_entry)?;
    way.list(1, &mut state.writes, write_entry)?;
    way.list(2, &mut state.gc, bucket)?;
    way.list(2, &mut state.free, bucket)
}

fn sizes<W: Way>(way: &mut W, sizes: &mut Sizes) -> Result<(), TurnedDown> {
    way.field(2, &mut sizes.page_bytes)?;
    way.field(1, &mut sizes.bucket_pages)?;
    way.field(2, &mut sizes.cache_buckets)?;
    way.field(2, &mut sizes.back_end_buckets)?;
    way.field(1, &mut sizes.read_limit)?;
    way.field(1, &mut sizes.write_limit)
}

fn read_entry<W: Way>(way: &mut W, entry: &mut ReadEntry) -> Result<(), TurnedDown> {
    way.field(2, &mut entry.back_end)?;
    way.field(1, &mut entry.bucket)
}

fn write_entry<W: Way>(way: &mut W, entry: &mut WriteEntry) -> Result<(), TurnedDown> {
    way.field(2, &mut entry.back_end)?;
    way.field(1, &mut entry.bucket)?;
    way.field(1, &mut entry.priority)?;
    way.mark(&mut entry.marked)?;
    way.field(1, &mut entry.blank)
}

fn bucket<W: Way>(way: &mut W, bucket: &mut u8) -> Result<(), TurnedDown> {
    way.field(1, bucket)
}

/// A way through the table: a frame sets the fields, bytes take them.
trait Way: Sized {
    /// Passes a number of `width` bytes and gives the one that the field has then.
    fn pass(&mut self, width: usize, number: u64) -> Result<u64, TurnedDown>;

    fn field<T>(&mut self, width: usize, field: &mut T) -> Result<(), TurnedDown>
    where
        T: Copy + TryFrom<u64> + TryInto<u64>,
    {
        let number = (*field).try_into().map_err(|_| TurnedDown::BadLine)?;
        let number = self.pass(width, number)?;
        *field = number.try_into().map_err(|_| TurnedDown::BadLine)?;
        Ok(())
    }

    fn mark(&mut self, mark: &mut bool) -> Result<(), TurnedDown> {
        *mark = match self.pass(1, u64::from(*mark))? {
            0 => false,
            1 => true,
            _ => return Err(TurnedDown::BadLine),
        };
        Ok(())
    }

    /// A count of `width` bytes, then as many items; a frame's list is empty before.
    fn list<T: Copy + Default, const N: usize>(
        &mut self,
        width: usize,
        list: &mut List<T, N>,
        item: impl Fn(&mut Self, &mut T) -> Result<(), TurnedDown>,
    ) -> Result<(), TurnedDown> {
        let count = self.pass(width, list.len() as u64)? as usize;
        if count > N {
            return Err(TurnedDown::BadLine);
        }
        while list.len() < count {
            list.push(T::default());
        }
        list.iter_mut().try_for_each(|entry| item(self, entry))
    }
}

impl Way for Frame<'_> {
    fn pass(&mut self, width: usize, _: u64) -> Result<u64, TurnedDown> {
        self.number(width)
    }
}

impl Way for Vec<u8> {
    fn pass(&mut self, width: usize, number: u64) -> Result<u64, TurnedDown> {
        self.extend_from_slice(&number.to_be_bytes()[8 - width..]);
        Ok(number)
    }
}
