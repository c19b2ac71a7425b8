//! Why a call is refused.

#[derive(Clone, Copy, PartialEq, Eq, Debug)]
pub enum Refusal {
    /// Under 4 bytes.
    FileShort,
    /// Edition or the 0 bit wrong.
    WrongEdition,
    /// N, M or (pack) C outside its range.
    CountRange,
    /// Length not 4+13N; in pack not a multiple of 24.
    WrongLength,
    /// The bytes do not add up to 0.
    ByteSum,
    /// A field, or a row's kind above 7 (lowest component).
    BadField { component: usize },
    /// A channel's ends (lowest channel).
    ChannelEnds { channel: usize },
    /// A circle.
    Circle,
    /// Choices not N long; in run, no multiple of N.
    ChoiceCount,
    /// A choice (lowest offset).
    BadChoice { offset: usize },
    /// Proposal length no multiple of 4, or over 16,384.
    ProposalLength,
    /// No such component or equation (first such term, from 0).
    NoEquation { term: usize },
    /// A flow left inside the colour sets (8 times channel plus colour, lowest).
    FlowLeft { flow: usize },
    /// All weights 0.
    NoWeight,
    /// State shorter than 64N.
    StateShort,
    /// State not good (lowest component).
    BadState { component: usize },
    /// Result space short.
    ResultSpace,
    /// Not a queue, or colour not below C.
    NotAQueue,
    /// Weight not above 0.
    WeightNotPositive,
    /// More than 64 blocks, a count over 4,096, or blocks that do not fill the file.
    BadBlocks,
}

impl Refusal {
    pub fn number(self) -> u32 {
        match self {
            Refusal::FileShort => 1,
            Refusal::WrongEdition => 2,
            Refusal::CountRange => 3,
            Refusal::WrongLength => 4,
            Refusal::ByteSum => 5,
            Refusal::BadField { .. } => 6,
            Refusal::ChannelEnds { .. } => 7,
            Refusal::Circle => 8,
            Refusal::ChoiceCount => 9,
            Refusal::BadChoice { .. } => 10,
            Refusal::ProposalLength => 11,
            Refusal::NoEquation { .. } => 12,
            Refusal::FlowLeft { .. } => 13,
            Refusal::NoWeight => 14,
            Refusal::StateShort => 21,
            Refusal::BadState { .. } => 22,
            Refusal::ResultSpace => 23,
            Refusal::NotAQueue => 31,
            Refusal::WeightNotPositive => 32,
            Refusal::BadBlocks => 33,
        }
    }

    /// Where the fault lies, 0 for a refusal that names no place.
    pub fn place(self) -> u64 {
        let place = match self {
            Refusal::BadField { component } | Refusal::BadState { component } => component,
            Refusal::ChannelEnds { channel } => channel,
            Refusal::BadChoice { offset } => offset,
            Refusal::NoEquation { term } => term,
            Refusal::FlowLeft { flow } => flow,
            _ => 0,
        };
        place as u64
    }
}

/// What a call's answer is in the document's numbers: 0 and 0 for success.
pub fn number_and_place<T>(answer: &Result<T, Refusal>) -> (u32, u64) {
    match answer {
        Ok(_) => (0, 0),
        Err(refusal) => (refusal.number(), refusal.place()),
    }
}
