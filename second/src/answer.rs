//! The three numbers that every call hands back.
//! Document 01, section "Numbers handed back".

#[derive(Clone, Copy, PartialEq, Eq, Debug)]
pub struct Answer {
    pub number: u64,
    pub place: u64,
    pub count: u64,
}

impl Answer {
    /// Number 0, place 0, and the count that the call states.
    pub fn done(count: u64) -> Answer {
        Answer {
            number: 0,
            place: 0,
            count,
        }
    }

    /// A refusal. "A refusal changes no output byte [...], and its count is 0."
    pub fn refused(number: u64, place: u64) -> Answer {
        Answer {
            number,
            place,
            count: 0,
        }
    }
}

/// Document 02, M-103: the position, from 1, of the first lent buffer with a wrong length. The buffers stand in the order
/// in which the documents name them, each with the length that it has and the stated one.
pub fn wrong_length(lengths: &[(usize, usize)]) -> Option<u64> {
    for i in 0..lengths.len() {
        let (has, stated) = lengths[i];
        if has != stated {
            return Some(i as u64 + 1);
        }
    }
    None
}
