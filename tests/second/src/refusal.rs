//! Document 01, "Why a call is turned down". Document 02, K1: "11, 15, 16 and 17 now
//! speak of reads too." K4: 10 looks at reports and chain length, 20 reads the chain
//! length, 18 has another limit. K6 brings 26 and 27.

/// The reasons, in the order and with the numbers of document 01.
#[derive(Clone, Copy, Debug, PartialEq, Eq, PartialOrd, Ord)]
pub enum Refusal {
    /// 1: "no multiple of 64 words or not 4 to 1,024 blocks"
    BadSize = 1,
    /// 2: "the scratch is shorter than 1,024 numbers"
    ShortScratch = 2,
    /// 3: "a wrong mark or a word after word 1 that is not 0"
    BadSuperblock = 3,
    /// 4: "the first log index is 0, or one of the first 64 indexes ..."
    BadLogIndex = 4,
    /// 5: "the chain has not ended after 64 log blocks"
    EndlessChain = 5,
    /// 6: "a word 1 other than 0, an entry after an empty one, ..."
    BadLogBlock = 6,
    /// 7: "an entry breaks the entry's rules"
    BadEntry = 7,
    /// 8: "two virtual blocks share a live block, or ..."
    LiveBlockShared = 8,
    /// 9: "a byte at or past the file's end in its last live block is not 0"
    DirtyEnd = 9,
    /// 10: "the shared record's block count is not 4 to 1,024, ..."
    SharedUnfit = 10,
    /// 11: "the point's record does not fit"
    RecordUnfit = 11,
    /// 12: "the point number is above 31"
    NoSuchPoint = 12,
    /// 13: "that point is joined already"
    JoinedAlready = 13,
    /// 14: "the point of the record is not joined"
    NotJoined = 14,
    /// 15: "beginning with a write under way, or stepping with none"
    WrongMoment = 15,
    /// 16: "the text has 0 or more than 1,024 bytes"
    BadTextLength = 16,
    /// 17: "the write ends past byte 131,072; the block is above 255"
    PastTheEnd = 17,
    /// 18: joining's first log index, or what catching up meets
    LogBroken = 18,
    /// 19: "no run of that many free blocks from block 1 on exists"
    NoRun = 19,
    /// 20: "reads a chain length of 64", where no next index is there
    LogFull = 20,
    /// 21: "a log block is needed and none from 1 on is free"
    NoLogBlock = 21,
    /// 22: "nothing is mapped there"
    Unmapped = 22,
    /// 26: "no points, more than 32 or not one write for each"
    BadList = 26,
    /// 27: "a point listed twice"
    ListedTwice = 27,
}

impl Refusal {
    /// This paper's number.
    pub fn number(self) -> u64 {
        self as u64
    }
}

/// One line of a list of refusals: `why` exactly when the sentence holds.
pub fn refuse(sentence: bool, why: Refusal) -> Result<(), Refusal> {
    if sentence {
        Err(why)
    } else {
        Ok(())
    }
}
