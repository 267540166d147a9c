//! The library's refusals in words.

use crate::feed::Feed;
use crate::stop::Stop;

/// The call that refused.
#[derive(Clone, Copy)]
pub enum Call {
    Update { slots: usize },
    Writing,
    Lookup,
    ListLookup,
}

pub struct Refusal {
    number: u32,
    call: Call,
    /// The count or the place beside the number.
    count: u64,
}

impl Refusal {
    pub fn unless(number: u32, call: Call, count: u64) -> Result<(), Refusal> {
        match number {
            0 => Ok(()),
            _ => Err(Refusal { number, call, count }),
        }
    }

    /// 1, 2, 3 and 11 are not about one record.
    pub fn of_whole_call(&self) -> bool {
        !(4..=9).contains(&self.number)
    }

    /// In words: what is wrong, with which record, and what was done before.
    pub fn told(self, feed: &Feed) -> Stop {
        let place = match self.of_whole_call() {
            true => feed.whole(),
            false => feed.record(self.count as usize),
        };
        let done = self.done(feed);
        Stop::Refused(format!(
            "refusal {}: {}\n  {place}\n  {done}; nothing was written",
            self.number,
            self.meaning()
        ))
    }

    fn meaning(&self) -> String {
        let words = match (self.number, self.call) {
            (1, Call::Update { slots }) => return format!("a ledger cannot have {slots} slots"),
            (1, _) => "the memory lent for a ledger is not of one length, or of none, or too long",
            (2, _) => "the memory holds no ledger",
            (3, _) => "the length of the list is no multiple of 8 bytes, so it ends in a part of a record",
            (4, _) => "the prefix length is over 32",
            (5, _) => "an address bit behind the prefix length is set",
            (6, Call::ListLookup) => "the action is not 1, announce, and a list that is looked up has nothing else",
            (6, _) => "the action is neither 1, announce, nor 2, withdraw",
            (7, _) => "the hop is out of range: 0 to 256 to announce, 0 to withdraw",
            (8, _) => "a prefix is withdrawn that is not held",
            (9, Call::Update { slots }) => return format!("the routes need more slots than the {slots} that are lent"),
            (11, _) => {
                return format!(
                    "the output lent has no room for the {} records of the table",
                    self.count
                )
            }
            _ => "no words are known for this number",
        };
        words.to_string()
    }

    fn done(&self, feed: &Feed) -> String {
        match self.call {
            Call::Update { .. } if self.of_whole_call() => "no record was applied".to_string(),
            Call::Update { .. } => format!("{} applied before it", records(self.count)),
            Call::Writing | Call::Lookup => format!("{} applied, all of the feed", records(feed.count() as u64)),
            Call::ListLookup if self.of_whole_call() => "no record was read".to_string(),
            Call::ListLookup => format!("{} read before it", records(self.count)),
        }
    }
}

fn records(count: u64) -> String {
    match count {
        0 => "no record was".to_string(),
        1 => "1 record was".to_string(),
        _ => format!("{count} records were"),
    }
}
