//! The records that a member keeps, as encoded bytes, and stops that are armed at the next one.

/// What a stop does with the record at which it comes.
#[derive(Clone, Copy, PartialEq, Eq, Debug)]
pub enum Stop {
    /// The record is kept.
    Kept,
    /// The record is lost.
    Lost,
}

/// The member stopped at its record.
#[derive(Debug)]
pub struct Stopped;

/// One member's records.
#[derive(Default)]
pub struct Journal {
    records: Vec<Vec<u8>>,
    armed: Option<Stop>,
}

impl Journal {
    /// Keeps a record before its call answers.
    pub fn append(&mut self, record: Vec<u8>) -> Result<(), Stopped> {
        let stop = self.armed.take();
        if stop != Some(Stop::Lost) {
            self.records.push(record);
        }
        if stop.is_some() {
            Err(Stopped)
        } else {
            Ok(())
        }
    }

    /// All records, in order.
    pub fn records(&self) -> &[Vec<u8>] {
        &self.records
    }

    /// Arms a stop, in place of an earlier one; or disarms it.
    pub fn arm(&mut self, stop: Option<Stop>) {
        self.armed = stop;
    }
}

#[cfg(test)]
mod tests {
    use super::*;

    #[test]
    fn a_stop_comes_at_the_next_record() {
        let mut journal = Journal::default();
        journal.arm(Some(Stop::Lost));
        assert!(journal.append(vec![1]).is_err());
        journal.arm(Some(Stop::Kept));
        assert!(journal.append(vec![2]).is_err());
        assert!(journal.append(vec![3]).is_ok());
        assert_eq!(journal.records(), [vec![2], vec![3]]);
    }
}
