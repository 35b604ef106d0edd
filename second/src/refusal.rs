//! The refusal numbers of documents 01 and 02.

#[derive(Clone, Copy, Debug, PartialEq, Eq)]
pub enum Refusal {
    MoreNeeded,
    NoMessage,
    TooLong,
    TooShort,
    StartLine,
    NoRequest,
    NoRoom,
    NothingActive,
    NoSuchCause,
    ChannelName,
    NoScore,
    NotKept,
    NotSound,
}

impl Refusal {
    pub const ALL: [Refusal; 13] = [
        Refusal::MoreNeeded,
        Refusal::NoMessage,
        Refusal::TooLong,
        Refusal::TooShort,
        Refusal::StartLine,
        Refusal::NoRequest,
        Refusal::NoRoom,
        Refusal::NothingActive,
        Refusal::NoSuchCause,
        Refusal::ChannelName,
        Refusal::NoScore,
        Refusal::NotKept,
        Refusal::NotSound,
    ];

    pub fn number(self) -> u32 {
        match self {
            Refusal::MoreNeeded => 1,
            Refusal::NoMessage => 2,
            Refusal::TooLong => 3,
            Refusal::TooShort => 4,
            Refusal::StartLine => 5,
            Refusal::NoRequest => 6,
            Refusal::NoRoom => 7,
            Refusal::NothingActive => 8,
            Refusal::NoSuchCause => 9,
            Refusal::ChannelName => 10,
            Refusal::NoScore => 11,
            Refusal::NotKept => 12,
            Refusal::NotSound => 21,
        }
    }

    /// "Given exactly when", in the paper's words.
    pub fn meaning(self) -> &'static str {
        match self {
            Refusal::MoreNeeded => "more bytes needed",
            Refusal::NoMessage => "the bytes can't begin a message",
            Refusal::TooLong => "stated length above 16,384",
            Refusal::TooShort => "stated length below the opening's own length",
            Refusal::StartLine => "framed, start line malformed",
            Refusal::NoRequest => "framed, a response or event, no request",
            Refusal::NoRoom => "the exact answer is longer than the lent output",
            Refusal::NothingActive => "engine report while neither speaking nor recognizing",
            Refusal::NoSuchCause => "engine cause above 7, on a recognizer above 15",
            Refusal::ChannelName => "channel name malformed at opening",
            Refusal::NoScore => "engine score that is no number",
            Refusal::NotKept => "no edition of that number is kept",
            Refusal::NotSound => "the channel handed in is not sound",
        }
    }

    pub fn of_number(number: u32) -> Option<Refusal> {
        Refusal::ALL
            .into_iter()
            .find(|refusal| refusal.number() == number)
    }
}
