//! The order of rows that stay where they are.

use crate::memory::reserve;
use crate::report::Result;

/// The numbers of some rows in the order of a key. Rows with the same one keep their order.
#[derive(Debug, Default)]
pub struct Order {
    count: u32,
    // Empty if the rows have that order.
    sorted: Vec<u32>,
}

impl Order {
    pub fn new(count: u32, key: impl Fn(u32) -> u64) -> Result<Order> {
        let mut sorted = Vec::new();
        let mut last = 0;
        let falls = |row| std::mem::replace(&mut last, key(row)) > last;
        if (0..count).any(falls) {
            reserve(&mut sorted, count as usize)?;
            sorted.extend(0..count);
            sorted.sort_unstable_by_key(|row| (key(*row), *row));
        }
        Ok(Order { count, sorted })
    }

    fn nth(&self, at: u32) -> u32 {
        self.sorted.get(at as usize).copied().unwrap_or(at)
    }

    pub fn rows(&self) -> impl Iterator<Item = u32> + '_ {
        (0..self.count).map(|at| self.nth(at))
    }

    /// The last row for which this is true, and the next, if it is true of some first ones alone.
    pub fn split(&self, is_first: impl Fn(u32) -> bool) -> (Option<u32>, Option<u32>) {
        let (mut low, mut end) = (0, self.count);
        while low < end {
            let middle = low + (end - low) / 2;
            if is_first(self.nth(middle)) {
                low = middle + 1;
            } else {
                end = middle;
            }
        }
        (low.checked_sub(1).map(|at| self.nth(at)), (low < self.count).then(|| self.nth(low)))
    }
}
