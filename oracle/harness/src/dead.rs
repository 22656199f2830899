//! Dead words: records under predicate 7 negated, which never run and become the end alone.

use oracle::record::Record;

/// The two sorts that are refused under any other guard, and all others.
const SORTS: [&str; 3] = ["mov of a system value", "i2i from byte 3", "other"];

/// How many dead words of each sort were accepted.
#[derive(Clone, Copy, Default)]
pub struct Dead([u64; SORTS.len()]);

impl Dead {
    /// Counts an accepted record if it is a dead word.
    pub fn count(&mut self, record: &Record) {
        if record.never_runs() {
            let sort = match (record.is_system_value_mov(), record.is_half_at_byte_3()) {
                (true, _) => 0,
                (_, true) => 1,
                _ => 2,
            };
            self.0[sort] += 1;
        }
    }

    pub fn add(&mut self, other: &Dead) {
        self.0.iter_mut().zip(other.0).for_each(|(to, from)| *to += from);
    }

    /// Prints the counts, and says whether every sort was seen.
    pub fn report(&self) -> bool {
        let counts: Vec<String> = SORTS.iter().zip(self.0).map(|(sort, times)| format!("{sort} {times}")).collect();
        let all = self.0.iter().all(|&times| times > 0);
        println!("dead words accepted: {}{}", counts.join(", "), if all { "" } else { "  <- a sort is lacking" });
        all
    }
}
