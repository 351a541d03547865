//! A queue over memory that the caller lends.

use crate::refusal::Refusal;

pub struct Line<'a, T> {
    memory: &'a mut [T],
    /// The place of the oldest element.
    first: usize,
    held: usize,
}

impl<'a, T: Copy> Line<'a, T> {
    pub fn new(memory: &'a mut [T]) -> Self {
        Line {
            memory,
            first: 0,
            held: 0,
        }
    }

    pub fn free(&self) -> usize {
        self.memory.len() - self.held
    }

    pub fn put(&mut self, element: T) -> Result<(), Refusal> {
        if self.free() == 0 {
            return Err(Refusal::Full);
        }
        // There is a free place, so the memory is not empty and the
        // remainder is defined.
        let place = (self.first + self.held) % self.memory.len();
        self.memory[place] = element;
        self.held += 1;
        Ok(())
    }

    pub fn take(&mut self) -> Option<T> {
        if self.held == 0 {
            return None;
        }
        let element = self.memory[self.first];
        self.first = (self.first + 1) % self.memory.len();
        self.held -= 1;
        Some(element)
    }
}

#[cfg(test)]
mod tests {
    use super::*;

    #[test]
    fn goes_round_in_order() {
        let mut memory = [0; 2];
        let mut line = Line::new(&mut memory);
        assert_eq!(line.take(), None);
        assert_eq!(line.put(1), Ok(()));
        assert_eq!(line.put(2), Ok(()));
        assert_eq!(line.put(3), Err(Refusal::Full));
        assert_eq!(line.take(), Some(1));
        assert_eq!(line.put(3), Ok(()));
        assert_eq!(line.take(), Some(2));
        assert_eq!(line.take(), Some(3));
        assert_eq!(line.take(), None);
        assert_eq!(memory, [3, 2]);
    }

    #[test]
    fn no_memory_is_full_and_empty() {
        let mut memory: [u8; 0] = [];
        let mut line = Line::new(&mut memory);
        assert_eq!(line.put(1), Err(Refusal::Full));
        assert_eq!(line.take(), None);
    }
}
