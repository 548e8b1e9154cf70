//! Surfaces by their handles: a handle names one surface from when it is put in to when it is taken out, and none before or
//! after, whatever is put into its place later.

/// A place for a surface, and how many surfaces it had before.
struct Slot<T> {
    turn: u32,
    surface: Option<T>,
}

pub(crate) struct Slots<T> {
    slots: Vec<Slot<T>>,
    free: Vec<u32>,
}

fn handle_of(index: u32, turn: u32) -> u64 {
    u64::from(turn) << 32 | u64::from(index)
}

impl<T> Slots<T> {
    pub(crate) fn new() -> Self {
        Slots { slots: Vec::new(), free: Vec::new() }
    }

    /// The handle that the next surface gets.
    pub(crate) fn next(&mut self) -> u64 {
        if self.free.is_empty() {
            // No host has memory for so many.
            self.free.push(u32::try_from(self.slots.len()).expect("less than 4,294,967,296 surfaces"));
            self.slots.push(Slot { turn: 0, surface: None });
        }
        let index = self.free[self.free.len() - 1];
        handle_of(index, self.slots[index as usize].turn)
    }

    /// Puts a surface in, under the handle that `next` says.
    pub(crate) fn put(&mut self, surface: T) {
        self.next();
        if let Some(index) = self.free.pop() {
            self.slots[index as usize].surface = Some(surface);
        }
    }

    pub(crate) fn get(&self, handle: u64) -> Option<&T> {
        let slot = self.slots.get(handle as u32 as usize)?;
        if u64::from(slot.turn) == handle >> 32 {
            slot.surface.as_ref()
        } else {
            None
        }
    }

    /// Takes the surface of a handle out.
    pub(crate) fn take(&mut self, handle: u64) -> Option<T> {
        let index = handle as u32;
        let slot = self.slots.get_mut(index as usize)?;
        if u64::from(slot.turn) != handle >> 32 {
            return None;
        }
        let surface = slot.surface.take()?;
        // A place whose turns are spent is used no more.
        if let Some(next) = slot.turn.checked_add(1) {
            slot.turn = next;
            self.free.push(index);
        }
        Some(surface)
    }

    /// All surfaces.
    pub(crate) fn into_surfaces(self) -> impl Iterator<Item = T> {
        self.slots.into_iter().filter_map(|slot| slot.surface)
    }

    pub(crate) fn len(&self) -> usize {
        self.slots.iter().filter(|slot| slot.surface.is_some()).count()
    }
}

#[cfg(test)]
mod tests {
    use super::*;

    #[test]
    fn a_handle_names_one_surface() {
        let mut slots = Slots::new();
        let first = slots.next();
        slots.put("first");
        let second = slots.next();
        slots.put("second");
        assert_eq!((slots.get(first), slots.get(second)), (Some(&"first"), Some(&"second")));
        assert_eq!(slots.take(first), Some("first"));
        assert_eq!(slots.get(first), None);
        assert_eq!(slots.take(first), None);
        let third = slots.next();
        assert_ne!(third, first);
        slots.put("third");
        assert_eq!((slots.get(first), slots.get(third), slots.len()), (None, Some(&"third"), 2));
        assert_eq!(slots.into_surfaces().collect::<Vec<_>>(), ["third", "second"]);
    }

    #[test]
    fn a_place_with_spent_turns_is_left() {
        let mut slots = Slots { slots: vec![Slot { turn: u32::MAX, surface: None }], free: vec![0] };
        let last = slots.next();
        slots.put(1);
        assert_eq!(slots.take(last), Some(1));
        assert_eq!(slots.take(last), None);
        assert_eq!(slots.next(), 1);
    }
}
