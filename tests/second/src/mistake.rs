//! Deliberate mistakes, to see that the sheets can tell them from the right engine.

use crate::width::{Width, CURRENT};

#[derive(Clone, Copy, Debug, PartialEq, Eq, PartialOrd, Ord)]
pub enum Mistake {
    /// Nodes of a level with equal last board share one resolved value.
    CachedValue,
    /// Rule G looks at one node for each last board only.
    CachedVerdict,
    /// Rule G without the list.
    GWithoutList,
    /// Rule C without the list.
    CWithoutList,
    /// The own child gets the default, as if the board had been silent.
    OwnChildSilent,
    /// Every run starts with an empty list.
    ListCleared,
    /// The last run converts without rule C.
    LastRunWithoutC,
    /// A board listed by rule G keeps its cells of that round.
    NoMaskSameRound,
    /// A frame from a listed board is stored as it came.
    ListedFrameKept,
    /// A frame that is too long is cut.
    OverlongCut,
    /// A frame that is too short is filled up with the default.
    ShortFilled,
    /// The length of a frame is counted in one byte: 256 bytes more are not noticed.
    LengthInAByte,
    /// A value of m or more is stored as it came, and counts as the default when read.
    RawStored,
    /// A value of m or more is stored and read as it came.
    RawRead,
    /// Rule G goes through its level backwards.
    GReversed,
    /// Rule C goes through each level backwards.
    CReversed,
    /// Rule C goes from level 1 up.
    CUpwards,
    /// Rule G is left out in the last round of a run.
    NoGInLastRound,
    /// Both rules use the list as it stood when the rule began.
    ListFrozen,
    /// An unresolved node counts as the default below the root too.
    NoneIsDefault,
    /// The least fitting value resolves a node, unique or not.
    FirstValueWins,
    /// The last run of a cut tree converts without rule C.
    CutLastRunWithoutC,
    /// Number 5 tries two sets, equal or not, and no third.
    CoverByTwo,
    /// Number 5 tries three different places only.
    CoverByDifferent,
    /// Number 5 tries the first set with itself only.
    CoverByFirst,
    /// Number 5 is met if all sets together cover.
    CoverByAll,
    /// Number 23 is judged before 18.
    FaultyBeforeValue,
    /// Number 26 is judged before 7.
    DefaultBeforeSpan,
    /// Number 26 is judged after 8.
    DefaultAfterDepth,
    /// A default of m is accepted.
    DefaultOfSpan,
    /// A missing frame counts as 0, not as the default.
    MissingIsZero,
    /// A frame from a listed board counts as 0.
    ListedIsZero,
    /// The cells of this round from a board that rule G lists become 0.
    MaskedIsZero,
    /// A frame of another length counts as 0.
    MisfitIsZero,
    /// A value of m or more in a frame counts as 0.
    BeyondIsZero,
    /// A cell of m or more counts as 0.
    CellIsZero,
    /// An unresolved root becomes 0.
    RootIsZero,
    /// An empty list of sets does not hold the empty set.
    NoPlaceInEmptyList,
    /// An empty list has the place of the set 00, if that is listed.
    PlaceOfEmptySet,
    /// Every place is 0.
    PlaceZero,
    /// Places count from 1; that of an empty list is 0.
    PlaceFromOne,
    /// The last set that holds a list is named.
    LastPlace,
    /// A set that equals a list is named before one that holds it.
    PlaceOfEqual,
    /// The largest set that holds a list is named.
    PlaceOfLargest,
    /// The first set that has a board of a list is named.
    PlaceOfAnyBoard,
    /// Repeated sets are not counted.
    PlaceWithoutRepeats,
    /// Places are those of the sets in rising order.
    PlaceAmongSorted,
    /// A list that is not empty has the place of F.
    PlaceOfFaulty,
    /// A list that is not empty has the place of the first board's that keeps cells.
    PlaceOfFirstBoard,
    /// A healthy dealer's line has the place of F.
    DealerPlace,
    /// Values stand in frames with the low byte first.
    LowByteFirst,
    /// Span, default and dealer's value stand in the head with the low byte first.
    HeadLowByteFirst,
    /// A decision is printed with the low byte first.
    DecisionLowByteFirst,
    /// A frame of an odd length loses its last byte.
    OddRoundedDown,
    /// Of a value in a frame the low byte is stored.
    HighByteLost,
    /// The mark of a cell without a value is 00FF: a node that resolves to 255 is unresolved.
    MarkFF,
    /// FFFF is below a span of 65,535.
    MarkBelowSpan,
    /// A frame of an odd length gets 00 for the byte that it lacks.
    OddFilled,
    /// The values of a frame are counted in one byte: 256 values more are not noticed.
    CountInAByte,
    /// Values with equal low bytes are one value to both rules and to resolving.
    LowByteCompared,
    /// A board writes 121 bytes of a frame at most, the room for values of one byte.
    FrameOf121,
    /// A rule that would list a board again writes its entry anew.
    EntryOverwritten,
    /// An entry has the run and the round that come next.
    EntryOfNextRound,
    /// An entry has run 1.
    EntryInRun1,
    /// An entry by rule G has the round for its level.
    GLevelOfRound,
    /// An entry by rule C has the level above the leaves.
    CLevelOfLeaves,
    /// An entry by rule C names rule G.
    CAsG,
    /// Number 12 does not judge the level of an entry.
    EntryLevelUnjudged,
    /// Number 12 takes a level of R.
    EntryLevelOfR,
    /// Number 12 does not judge run and round of an entry.
    EntryRoundUnjudged,
    /// Number 12 judges run and round of an entry each by itself.
    EntryRoundAlone,
    /// Number 12 does not ask whether board n or above has an entry.
    EntryBoardUnjudged,
}

impl Mistake {
    /// All mistakes, at both widths.
    pub const ALL: [Mistake; 72] = [
        Mistake::CachedValue,
        Mistake::CachedVerdict,
        Mistake::GWithoutList,
        Mistake::CWithoutList,
        Mistake::OwnChildSilent,
        Mistake::ListCleared,
        Mistake::LastRunWithoutC,
        Mistake::NoMaskSameRound,
        Mistake::ListedFrameKept,
        Mistake::OverlongCut,
        Mistake::ShortFilled,
        Mistake::LengthInAByte,
        Mistake::RawStored,
        Mistake::RawRead,
        Mistake::GReversed,
        Mistake::CReversed,
        Mistake::CUpwards,
        Mistake::NoGInLastRound,
        Mistake::ListFrozen,
        Mistake::NoneIsDefault,
        Mistake::FirstValueWins,
        Mistake::CutLastRunWithoutC,
        Mistake::CoverByTwo,
        Mistake::CoverByDifferent,
        Mistake::CoverByFirst,
        Mistake::CoverByAll,
        Mistake::FaultyBeforeValue,
        Mistake::DefaultBeforeSpan,
        Mistake::DefaultAfterDepth,
        Mistake::DefaultOfSpan,
        Mistake::MissingIsZero,
        Mistake::ListedIsZero,
        Mistake::MaskedIsZero,
        Mistake::MisfitIsZero,
        Mistake::BeyondIsZero,
        Mistake::CellIsZero,
        Mistake::RootIsZero,
        Mistake::NoPlaceInEmptyList,
        Mistake::PlaceOfEmptySet,
        Mistake::PlaceZero,
        Mistake::PlaceFromOne,
        Mistake::LastPlace,
        Mistake::PlaceOfEqual,
        Mistake::PlaceOfLargest,
        Mistake::PlaceOfAnyBoard,
        Mistake::PlaceWithoutRepeats,
        Mistake::PlaceAmongSorted,
        Mistake::PlaceOfFaulty,
        Mistake::PlaceOfFirstBoard,
        Mistake::DealerPlace,
        Mistake::LowByteFirst,
        Mistake::HeadLowByteFirst,
        Mistake::DecisionLowByteFirst,
        Mistake::OddRoundedDown,
        Mistake::HighByteLost,
        Mistake::MarkFF,
        Mistake::MarkBelowSpan,
        Mistake::OddFilled,
        Mistake::CountInAByte,
        Mistake::LowByteCompared,
        Mistake::FrameOf121,
        Mistake::EntryOverwritten,
        Mistake::EntryOfNextRound,
        Mistake::EntryInRun1,
        Mistake::GLevelOfRound,
        Mistake::CLevelOfLeaves,
        Mistake::CAsG,
        Mistake::EntryLevelUnjudged,
        Mistake::EntryLevelOfR,
        Mistake::EntryRoundUnjudged,
        Mistake::EntryRoundAlone,
        Mistake::EntryBoardUnjudged,
    ];

    /// The mistakes that can be made at a width.
    pub fn at(width: Width) -> Vec<Mistake> {
        let made = |mistake: &Mistake| width == Width::Two || !mistake.needs_two();
        Mistake::ALL.into_iter().filter(made).collect()
    }

    /// Mistakes about values of two bytes.
    pub fn needs_two(self) -> bool {
        (Mistake::LowByteFirst..=Mistake::FrameOf121).contains(&self)
    }

    /// Mistakes that no sheet can show, and that calls tell: with `RawStored` cells differ, what is printed does not;
    /// `CellIsZero` is about cells of m or more, which no sheet leads to; frames as long as `FrameOf121` cuts are due
    /// only from a board that is in no set, and only where what it says in earlier rounds settles all; entries are not
    /// printed, and no sheet leads to number 12.
    pub fn hidden(self) -> bool {
        use Mistake::*;
        matches!(self, RawStored | CellIsZero | FrameOf121) || self >= EntryOverwritten
    }

    /// The mistakes that a sheet tells from the right engine, accepted or refused.
    pub fn told_by(sheet: &[u8]) -> Vec<Mistake> {
        Mistake::told_by_at(CURRENT, sheet)
    }

    pub fn told_by_at(width: Width, sheet: &[u8]) -> Vec<Mistake> {
        let printed = |mistake| crate::print(&crate::play_at(width, sheet, mistake));
        let right = printed(None);
        let mut told = Mistake::at(width);
        told.retain(|mistake| printed(Some(*mistake)) != right);
        told
    }
}
