//! Wrong variants of this program, each with one slip. A comparison with
//! another program is only worth something if it finds them, so it is tried
//! against each. Document 01 names some under "Errors that look right"; the
//! others are slips that its text, or that of orders 1 to 11 of document 02, makes
//! easy.
//!
//! No variant is set at first. In the code a slip stands behind the right rule:
//! `rule!(right, Slip: wrong)`.

#[cfg(feature = "wrong")]
use std::cell::Cell;

use crate::batch::LENGTH_BYTES;
use crate::frame::{carries_tag, check_source, Header, TAG_MARK, VLAN_MARK};
use crate::history::History;
use crate::prp::Trailer;
use crate::stream::steps;
use crate::{arrival, table, Arrival, Batch, Family, Refusal, Settings, Stream, Verdict};

/// Where the slip can be seen.
#[derive(Clone, Copy, Debug, PartialEq, Eq)]
pub enum Seen {
    /// In the lines of an event file.
    Files,
    /// Only where calls are compared: the slip is in a counter, an output byte,
    /// the treatment of a damaged record or of a small output, in the tag
    /// writer, in taking a tag out, in a batch, in a send, in a turn from PRP or
    /// to PRP, in the index, in what becomes of a virtual link's frames, in whether
    /// a VLAN tag was there, or in the priority of what is not handed up.
    /// `events` shows none of these. As to its own index: it is always the rebuilt
    /// one, no two slots have one key, and no two keys of `generate` share a place.
    /// As to virtual links: they can be opened, and no frame reaches them.
    CallsOnly,
}

/// One wrong variant, as the list has it.
#[derive(Clone, Copy, Debug)]
pub struct Variant {
    /// What [`set`] takes.
    pub wrong: Wrong,
    /// Where it can be seen.
    pub seen: Seen,
    /// What it does, in a few words.
    pub what: &'static str,
}

macro_rules! variants {
    ($($wrong:ident, $seen:ident, $what:literal;)+) => {
        /// The slips. [`VARIANTS`] says what each one is.
        #[derive(Clone, Copy, Debug, PartialEq, Eq)]
        #[allow(missing_docs)]
        pub enum Wrong {
            $($wrong,)+
        }

        /// Every variant, in the order of their numbers, which start at 1.
        pub const VARIANTS: &[Variant] = &[
            $(Variant { wrong: Wrong::$wrong, seen: Seen::$seen, what: $what },)+
        ];
    };
}

variants! {
    PlainComparison, Files, "numbers are compared as plain numbers, without the wrap";
    DuplicateRenews, Files, "a duplicate renews the ticks";
    RogueRenews, Files, "a rogue renews the ticks";
    TakesL, Files, "d = L is accepted";
    TakesMinusL, Files, "d = -L is accepted";
    LateUnmarked, Files, "a number out of order is handed up and not marked";
    AnchorGoesBack, Files, "the anchor follows a number out of order";
    HistoryStays, Files, "the anchor moves and the history does not";
    EmptyFullWord, Files, "a word that lies wholly in the window has no place in it, as a shift by 64 may give";
    MatchHasRogue, Files, "the match rule gives rogue outside the window";
    VlanUnmasked, Files, "the VLAN id is all 16 bits";
    VlanZeroApart, Files, "a VLAN tag with id 0 has another key than no tag";
    VlanBehindTag, Files, "8100 is also looked for behind F1C1";
    KeyWithoutVlan, Files, "the key is the destination alone";
    KeyVlanAlone, Files, "the key is the VLAN id alone";
    KeyFiveBytes, Files, "only the first five bytes of the destination are compared";
    FindsClosed, Files, "a slot that is not in use is found by its key too";
    SearchEndsAtVlan, Files, "the search ends at the first slot in use with another VLAN id";
    FirstWithVlan, Files, "of the slots in use with the VLAN id only the first is looked at";
    Opens4095, Files, "VLAN 4095 can be opened";
    NumberLowFirst, Files, "the number is read low byte first";
    ReservedRead, Files, "a tag counts only if its reserved bytes are zero";
    ShortAt17, Files, "with 8100 a frame is short below 17";
    ShortBehindTag, Files, "with F1C1 at o a frame is short below o + 6";
    Longest1999, Files, "a frame of 2000 bytes is too long";
    LengthBeforeNetwork, Files, "refusal 3 comes before 2";
    KeyBeforeSettings, Files, "refusal 10 comes before 9";
    FullBeforeKey, Files, "refusal 11 comes before 10";
    OpensHighest, Files, "open fills the highest free slot";
    ReopenKeepsState, Files, "a slot opened again keeps its anchor, history, ticks and n";
    ClosesLowest, Files, "close frees the lowest slot in use";
    ResetForgotten, Files, "reset answers ok and does nothing";
    ResetsEarly, Files, "a stream is reset one tick early";
    TickStopsAtReset, Files, "a tick ends at the first stream that it resets";
    UnknownKindEnds, Files, "an unknown kind ends the reading";
    EmptyBodyEnds, Files, "a body of length 0 ends the reading";
    LengthOf15Bits, Files, "a length of 32768 or more loses its high bit";
    CutLengthEnds, Files, "a record cut within its length bytes prints end";
    MarksBeforeRoom, CallsOnly, "the number is marked before the room is known";
    RoomBeforeDamage, CallsOnly, "refusal 8 comes before 7";
    RoomBeforeTagged, CallsOnly, "in the tag writer refusal 8 comes before 13";
    OneLossAMove, CallsOnly, "the history moves at once and one loss is counted";
    LostCountsMarked, CallsOnly, "the set bits that leave are counted as lost";
    OneOutOfOrder, CallsOnly, "d = 1 counts as out of order";
    NetworkZeroCounts, CallsOnly, "every arrival counts for network 0";
    ResetsUncounted, CallsOnly, "a reset does not raise resets";
    OpenKeepsCounters, CallsOnly, "a slot opened again keeps its counters";
    CloseClears, CallsOnly, "close clears the other fields too";
    ResetRefusesDamage, CallsOnly, "the reset call refuses every damaged record";
    TickAgesDamage, CallsOnly, "a tick ages damaged records";
    DuplicateWrites, CallsOnly, "a duplicate is written to the output";
    ClearsRest, CallsOnly, "bytes behind the frame handed up are cleared";
    GroupOfDestination, Files, "a group destination is refused in place of a group source";
    GroupHighBit, Files, "the highest bit of the first source byte marks a group";
    GroupAnyBit, Files, "any bit of the first source byte marks a group";
    StreamBeforeGroup, Files, "refusal 6 comes before 14";
    GroupBeforeNoTag, Files, "refusal 14 comes before 5";
    WriterTakesGroup, CallsOnly, "the tag writer takes a group source";
    GroupBeforeTagged, CallsOnly, "in the tag writer refusal 14 comes before 13";
    RoomBeforeGroup, CallsOnly, "in the tag writer refusal 8 comes before 14";
    TakeRefusesGroup, CallsOnly, "taking a tag out refuses a group source";
    GoesOnBehind8, CallsOnly, "a batch goes on behind an 8";
    AnyRefusalEnds, CallsOnly, "every refused frame ends a batch";
    NoRoomIs8, CallsOnly, "where fewer than two bytes are left every frame of a batch is answered 8";
    DuplicateNoRoom, CallsOnly, "in a batch a duplicate needs no room";
    DuplicateHasLength, CallsOnly, "in a batch a duplicate writes the length 0";
    RoomForgetsLength, CallsOnly, "the room of a frame in a batch includes its two length bytes";
    LengthWithTag, CallsOnly, "the length of a frame handed up in a batch counts its tag";
    UpLengthLowFirst, CallsOnly, "the lengths in a batch's output stand low byte first";
    NotPacked, CallsOnly, "each frame handed up in a batch stands at the start of the output";
    RestAnswered8, CallsOnly, "frames that a batch does not reach are answered 8 too";
    CountsThe8, CallsOnly, "how many frames came before an 8 counts the 8 too";
    LengthsWhenReached, CallsOnly, "refusal 15 is found only when the frame is reached";
    CountBeforeNetwork, CallsOnly, "a count above 32 is refused before the network";
    Refuses32, CallsOnly, "a batch of 32 frames is refused";
    RefusesNone, CallsOnly, "a batch of no frames is refused";
    LengthsLowFirst, CallsOnly, "the lengths in a batch are read low byte first";
    CutLengthIsZero, CallsOnly, "length bytes that are cut are taken as a length of 0";
    LengthsJudged, CallsOnly, "a length of 0 or above 2000 in a batch is refused with 15";
    TrailingRefused, CallsOnly, "input behind the last frame of a batch is refused with 15";
    EarlyStays, CallsOnly, "a move does not take n down";
    OneEarlyAMove, Files, "a move takes n down by one, whatever its places";
    ZerosTakeEarly, Files, "n falls only where a zero leaves";
    LateTakesEarly, Files, "a late number older than the first takes n down";
    DuplicateTakesEarly, Files, "a duplicate takes n down";
    EarlyIsL, Files, "n is L when take-any ends";
    MatchHasEarly, Files, "n is L - 1 when take-any ends in a match record too";
    ResetKeepsEarly, Files, "a reset leaves n";
    OpenKeepsEarly, Files, "a slot opened again keeps n alone";
    EarlyIsLost, CallsOnly, "a zero that leaves counts as lost with n above 0 too";
    LastEarlyIsLost, CallsOnly, "a zero that leaves with n = 1 counts as lost";
    MoveWithoutLoss, CallsOnly, "a move that begins with n above 0 counts no loss";
    EarlyTooHigh, CallsOnly, "n above L - 1 is lawful";
    EarlyWithoutBit, CallsOnly, "n above 0 is lawful with bit L - 1 - n clear";
    EarlyInMatch, CallsOnly, "any n is lawful in a match record";
    EarlyInFresh, CallsOnly, "any n is lawful with take-any";
    Most64, Files, "L above 64 is outside the sizes";
    Most511, Files, "L = 512 is outside the sizes";
    Opens513, Files, "L = 513 can be opened";
    WindowIsByte, Files, "open takes L modulo 256";
    KindOneMost64, Files, "kind 1 with L above 64 is refused";
    KindOneOf14, Files, "kind 1 with 14 bytes is taken as kind 6";
    KindSixOf13, Files, "kind 6 with 13 bytes is taken as kind 1";
    KindSixUnknown, Files, "kind 6 is bad";
    KindSixLowFirst, Files, "L in kind 6 is read low byte first";
    TestsFirstWord, Files, "the test of a bit looks into the first word, at the place modulo 64";
    MarksFirstWord, Files, "a bit is set in the first word, at the place modulo 64";
    CarryForgotten, Files, "a move loses the bit that leaves a word";
    CarryAround, Files, "the bit that leaves a word comes in at the foot of the same word";
    CarryFromMoved, Files, "the bit that comes into a word is read after the word below has moved";
    MovesMod64, Files, "the history moves d modulo 64 places";
    MovesAtMost64, Files, "the history moves at most 64 places";
    LeaverStays, Files, "what leaves the window stays in the history";
    ResetFirstWord, Files, "a reset clears the first word of the history alone";
    EarlyInFirstWord, Files, "n above 0 asks for its bit in the first word, at the place modulo 64";
    EarlyIsByte, Files, "n is L - 1 modulo 256 when take-any ends";
    LossFromFirstWord, CallsOnly, "the bit that leaves is read in the first word, at the place modulo 64";
    BitAtLLawful, CallsOnly, "a bit at exactly L is lawful";
    LastWordUncut, CallsOnly, "bits at L or above are lawful in the word that has place L - 1";
    HigherWordsUnseen, CallsOnly, "bits in the words above the window's are lawful";
    EmptyByFirstWord, CallsOnly, "a history is zero if its first word is";
    RefusedUsesNumber, CallsOnly, "a refused frame uses up a number of its sender";
    NoRoomUsesNumber, CallsOnly, "a frame that a send refuses with 8 uses up a number";
    TwoNumbersAFrame, CallsOnly, "a send uses up two numbers, one for each output";
    SenderSkipsZero, CallsOnly, "a sender's 65535 is followed by 1";
    SenderStaysAtEnd, CallsOnly, "a sender's 65535 is followed by 65535";
    SenderWrapsEarly, CallsOnly, "a sender's 65534 is followed by 0";
    SenderStartsAtOne, CallsOnly, "a sender's next number is 1 at first";
    SenderResetForgotten, CallsOnly, "a reset leaves a sender's next number";
    SenderResetsToOne, CallsOnly, "a reset sets a sender's next number to 1";
    SecondGetsNext, CallsOnly, "in a send the second output gets the number behind the first's";
    SecondUnwritten, CallsOnly, "a send writes to the first output alone";
    FirstBeforeRoom, CallsOnly, "a send writes to the first output before the room in the second is known";
    SecondBeforeRoom, CallsOnly, "a send writes to the second output before the room in the first is known";
    SendRoomInEither, CallsOnly, "a send gives 8 only if both outputs are too small";
    SendRoomInFirst, CallsOnly, "a send asks for room in the first output alone";
    SendRoomInSecond, CallsOnly, "a send asks for room in the second output alone";
    SendOutputsAlike, CallsOnly, "a send gives 8 where its outputs differ in length";
    SendNeedsOneMore, CallsOnly, "a send gives 8 where an output has just the room";
    SendRoomBeforeGroup, CallsOnly, "in a send refusal 8 comes before 14";
    SendRoomBeforeTagged, CallsOnly, "in a send refusal 8 comes before 13";
    SendRoomBeforeShort, CallsOnly, "in a send refusal 8 comes before 4";
    SendRoomBeforeLength, CallsOnly, "in a send refusal 8 comes before 3";
    SendTakes2000, CallsOnly, "a send gives 3 above 2000 bytes only, and 8 from 1995 on";
    SendClearsFirst, CallsOnly, "a send clears the bytes behind the frame in the first output";
    SendClearsSecond, CallsOnly, "a send clears the bytes behind the frame in the second output";
    SendTellsNext, CallsOnly, "a send answers the number that comes next";
    SendTellsUntagged, CallsOnly, "a send answers the length without the tag";
    PrpLanExchanged, CallsOnly, "LAN A of PRP is network 1, both ways";
    PrpLanByLowBit, CallsOnly, "from PRP every LAN is taken, and its lowest bit is the network";
    PrpLanFromA, CallsOnly, "from PRP a LAN above B is taken as B";
    PrpLanNotA, CallsOnly, "from PRP every LAN but A is taken as B";
    PrpSizeBare, CallsOnly, "the size of PRP leaves the trailer out, both ways";
    PrpSizeForgetsSuffix, CallsOnly, "the size of PRP leaves 88FB out, both ways";
    PrpSizeForgetsVlan, CallsOnly, "the size of PRP counts from 14 with a VLAN tag too, both ways";
    PrpSizeWithType, CallsOnly, "the size of PRP counts the type field too, both ways";
    PrpSizeWhole, CallsOnly, "the size of PRP counts the whole frame, both ways";
    PrpSizeUnread, CallsOnly, "from PRP every size is taken";
    PrpSizeAtMost, CallsOnly, "from PRP a size below the fitting one is taken too";
    PrpSizeAtLeast, CallsOnly, "from PRP a size above the fitting one is taken too";
    PrpSizeLowByte, CallsOnly, "from PRP only the low byte of the size is compared";
    PrpSuffixUnread, CallsOnly, "from PRP 88FB is not looked for";
    PrpSuffixHalf, CallsOnly, "from PRP only the 88 of 88FB is looked for";
    PrpNumberLowFirst, CallsOnly, "the number of PRP stands low byte first, both ways";
    PrpOneIs2012, CallsOnly, "a PRP setting above 1 is the first edition";
    PrpKindByLowBit, CallsOnly, "the lowest bit of a PRP setting says the kind";
    PrpKindsExchanged, CallsOnly, "the PRP setting 0 is 2012";
    PrpKindGuessed, CallsOnly, "from PRP the kind is told from 88FB at the end, whatever the setting";
    PrpLongest1994, CallsOnly, "from PRP a frame above 1994 bytes is too long";
    PrpLongest1998, CallsOnly, "from PRP a frame above 1998 bytes is too long with 2012 too";
    PrpLongest2000, CallsOnly, "from PRP a frame up to 2000 bytes is taken with the first edition too";
    PrpLongestTagged, CallsOnly, "from PRP a tagged frame of 2000 bytes is too long";
    PrpShortByOne, CallsOnly, "from PRP a frame of just header and trailer is short";
    PrpShortByHeader, CallsOnly, "from PRP a frame shorter than header and trailer together is 16";
    PrpShortForgetsVlan, CallsOnly, "from PRP a VLAN tag adds nothing to the shortest frame";
    PrpTrailerBeforeTagged, CallsOnly, "from PRP refusal 16 comes before 13";
    PrpTakesTagged, CallsOnly, "from PRP a frame that carries F1C1 is taken";
    FromPrpRefusesGroup, CallsOnly, "from PRP a group source is refused";
    PrpRoomBeforeTrailer, CallsOnly, "from PRP refusal 8 comes before 16";
    PrpRoomBeforeTagged, CallsOnly, "from PRP refusal 8 comes before 13";
    PrpRoomBeforeShort, CallsOnly, "from PRP refusal 8 comes before 4";
    PrpRoomBeforeLength, CallsOnly, "from PRP refusal 8 comes before 3";
    PrpTrailerStays, CallsOnly, "from PRP the trailer stays in the frame";
    PrpTagAtEnd, CallsOnly, "from PRP the tag is put in at the end";
    PrpTagAt12, CallsOnly, "from PRP the tag is put in before a VLAN tag";
    PrpWritesBeforeRoom, CallsOnly, "a turn from PRP or to PRP writes before the room is known";
    PrpNeedsOneMore, CallsOnly, "a turn from PRP or to PRP gives 8 where the output has just the room";
    PrpClearsRest, CallsOnly, "a turn from PRP or to PRP clears the bytes behind the result";
    PrpTellsLan, CallsOnly, "a turn from PRP or to PRP answers LAN in place of the network";
    PrpTellsGivenLength, CallsOnly, "a turn from PRP or to PRP answers the length of the frame given";
    ToPrpLengthBeforeNetwork, CallsOnly, "to PRP refusal 3 comes before 2";
    ToPrpNetworkByLowBit, CallsOnly, "to PRP every network is taken, and its lowest bit is the LAN";
    ToPrpRefusesGroup, CallsOnly, "to PRP a group source is refused";
    ToPrpRefusesTagged, CallsOnly, "to PRP a frame whose type is F1C1 without its tag is refused";
    ToPrpBareUnchecked, CallsOnly, "to PRP a frame that is short without its tag is taken";
    ToPrpSizeFromTag, CallsOnly, "to PRP the size counts from where the tag was";
    ToPrpRoomBeforeBare, CallsOnly, "to PRP refusal 8 comes before the second 4";
    ToPrpRoomFirst, CallsOnly, "to PRP refusal 8 comes first";
    LateFromZero, Files, "a number before the anchor is a duplicate on network 1";
    LastIsRogue, Files, "d = -(L - 1) is a rogue";
    FreshKnows65535, Files, "a fresh stream finds 65535, the anchor it has, a duplicate";
    LateKeepsTicks, Files, "a number before the anchor is handed up and renews no ticks";
    CloseKeepsIndex, CallsOnly, "close leaves the index as it was, with a place that names the closed slot";
    FollowStopsAtOther, CallsOnly, "following stops at a place that names a slot in use with another key";
    FollowEndsAt127, CallsOnly, "following ends at the last place and does not go round the end";
    SettingsBeforeIndex, CallsOnly, "in open refusal 9 comes before 18";
    RefusedOpenRebuilds, CallsOnly, "an open refused with 9, 10 or 11 rebuilds the index";
    BatchIndexUnchecked, CallsOnly, "a batch takes any index and never gives 18";
    LinkUnknown, Files, "rule 3 is outside the sizes";
    LinkAnyVlan, Files, "rule 3 goes with every VLAN id";
    LinkWiderL, Files, "with rule 3 L may be 1 and 513 too";
    FreshLinkDamaged, Files, "a fresh record of rule 3 is damaged, its anchor being above 255";
    ArrivalHearsLinks, Files, "an arrival looks at slots of rule 3 too";
    OpenLooksAtOwn, Files, "open's 10 looks at rule 3 alone, or at the rest alone, as the new stream is";
    RebuildLeavesLinks, Files, "no slot of rule 3 is entered in the index";
    LinkRingOf256, CallsOnly, "the steps of a link go round a ring of 256";
    LinkZeroAfterZero, CallsOnly, "a link hands up a 0 behind a 0";
    LinkZeroOnRing, CallsOnly, "a link hands up a 0 only where 255 would be";
    LinkTakes128, CallsOnly, "a link hands up 128 steps forward";
    LinkLeaves127, CallsOnly, "127 steps forward are a duplicate in a link";
    LinkAfterZeroAll, CallsOnly, "a link hands up every number from 1 on behind a 0";
    LinkFreshAsZero, CallsOnly, "a fresh link hands up 0 to 127 alone";
    LinkDuplicateMoves, CallsOnly, "a link counts its steps from the last number that came";
    LinkHasRogue, CallsOnly, "a link finds 128 to 254 steps a rogue";
    LinkCountsDisorder, CallsOnly, "more than one step forward is out of order in a link";
    LinkCountsLost, CallsOnly, "the numbers that a link's steps pass over are lost";
    LinkMarksHistory, CallsOnly, "the first number of a link sets bit 0 of the history";
    LinkHasEarly, CallsOnly, "n is L - 1 when take-any ends in a link too";
    LinkNeverAges, CallsOnly, "a tick leaves lawful records of rule 3";
    LinkAnyAnchor, CallsOnly, "any anchor is lawful in a link without take-any";
    LinkAnchor256, CallsOnly, "anchor 256 is lawful in a link without take-any";
    LinkAnyHistory, CallsOnly, "any history is lawful in a link without take-any";
    EarlyInLink, CallsOnly, "any n is lawful in a link";
    LinkLongest1994, CallsOnly, "a link's frame above 1994 bytes is too long";
    LinkLongest2001, CallsOnly, "a link's frame of 2001 bytes is taken, as 2000 are handed up";
    LinkShortAt14, CallsOnly, "a link's frame of 14 bytes is not short";
    LinkShortWithVlan, CallsOnly, "with 8100 a link's frame is short below 18";
    LinkReadsVlan, CallsOnly, "the key of a link's frame has the VLAN id behind 8100";
    LinkGives5, CallsOnly, "a link arrival gives 4 and 5 as an arrival does";
    LinkRefusesTagged, CallsOnly, "a link arrival refuses a frame that carries F1C1";
    LinkKeepsLastByte, CallsOnly, "a link's frame is handed up with its last byte";
    LinkLengthBeforeNetwork, CallsOnly, "in a link arrival refusal 3 comes before 2";
    LinkGroupBeforeShort, CallsOnly, "in a link arrival refusal 14 comes before 4";
    LinkTakesGroup, CallsOnly, "a link arrival takes a group source";
    LinkStreamBeforeGroup, CallsOnly, "in a link arrival refusal 6 comes before 14";
    LinkRoomBeforeDamage, CallsOnly, "in a link arrival refusal 8 comes before 7";
    LinkNeedsWhole, CallsOnly, "a link arrival gives 8 where its frame fits without the last byte alone";
    LinkDuplicateNoRoom, CallsOnly, "a duplicate needs no room in a link arrival";
    LinkHearsOthers, CallsOnly, "a link arrival looks at slots of other rules too";
    LinkPassesDamage, CallsOnly, "a link arrival passes over damaged slots";
    LinkOfAnyVlan, CallsOnly, "a link arrival looks at slots of rule 3 with any VLAN id";
    ArrivalHearsTwoRules, CallsOnly, "an arrival looks at rules 1 and 2 alone, not at those that are none";
    BatchHearsLinks, CallsOnly, "a batch takes slots of rule 3 for match";
    AgreementOnce, CallsOnly, "the agreement is asked of each key once, whatever the rules";
    AgreementOfRest, CallsOnly, "the agreement is not asked of slots of rule 3";
    FollowStopsAtFamily, CallsOnly, "following stops where the key is that of a slot of the other family";
    PriorityOneLow, Files, "the priority is read one bit low: its two lower bits and the bit below them";
    PriorityFourBits, Files, "the priority is the four highest bits, 0 to 15";
    PriorityOfId, Files, "the priority is the three lowest bits of the byte at 15";
    PriorityOfByte15, Files, "the priority is the three highest bits of the byte at 15";
    PriorityTwoBits, Files, "the priority is its two lower bits alone";
    PriorityFrom7, Files, "the priority is 7 less what the bits say";
    PriorityTurned, Files, "the priority's bits are read lowest first, so that 1 is 4";
    PriorityAsWritten, Files, "the VLAN tag is that of the frame without its tag: 8100 behind F1C1 at 12 is one";
    VlanZeroUntagged, Files, "a VLAN tag with id 0 gives 0 and no, as no tag does";
    UpPrintsNone, Files, "no line has the priority";
    UntaggedPrintsNone, Files, "up lines of frames with no VLAN tag have no priority";
    PrintsVlanTag, Files, "up lines have 1 or 0 for the VLAN tag in place of the priority";
    DupPrintsPriority, Files, "dup lines have the priority too";
    RoguePrintsPriority, Files, "rogue lines have the priority too";
    PriorityBeforeNumber, Files, "the priority stands before the number";
    PriorityBeforeSlot, Files, "the priority stands before the slot";
    TagAsWritten, CallsOnly, "with 8100 behind F1C1 at 12 an answer says that a VLAN tag was there, with 0";
    UntaggedSaysTag, CallsOnly, "with no VLAN tag an arrival and a batch say that one was there";
    TagUntold, CallsOnly, "no answer says that a VLAN tag was there";
    PriorityZeroSaysNone, CallsOnly, "an answer with priority 0 says that no VLAN tag was there";
    VlanZeroSaysNone, CallsOnly, "with VLAN id 0 an answer says that no VLAN tag was there, and has its priority";
    OnlyUpHasPriority, CallsOnly, "duplicates and rogues have 0 and no";
    DuplicateHasNone, CallsOnly, "duplicates have 0 and no";
    RogueHasNone, CallsOnly, "rogues have 0 and no";
    BatchHasNone, CallsOnly, "the answers of a batch have 0 and no";
    BatchOfFirst, CallsOnly, "all answers of a batch have priority and VLAN tag of the first that was not refused";
    BatchOfLast, CallsOnly, "all answers of a batch have priority and VLAN tag of the last that was not refused";
    BatchOfBefore, CallsOnly, "each answer of a batch has priority and VLAN tag of the one before";
    BatchKeepsLastTag, CallsOnly, "in a batch a frame with no VLAN tag has what the last VLAN tag before it gave";
    LinkHasPriority, CallsOnly, "a link arrival reads a VLAN tag and answers its priority and yes";
    LinkSaysTag, CallsOnly, "a link arrival says that a VLAN tag was there";
}

#[cfg(feature = "wrong")]
thread_local! {
    static SET: Cell<Option<Wrong>> = const { Cell::new(None) };
}

/// Makes all calls of this thread wrong in this way, or right again.
#[cfg(feature = "wrong")]
pub fn set(wrong: Option<Wrong>) {
    SET.with(|set| set.set(wrong));
}

/// The variant that is set in this thread.
#[cfg(feature = "wrong")]
pub fn now() -> Option<Wrong> {
    SET.with(Cell::get)
}

/// Without the feature no variant can be set, and asking costs nothing.
#[cfg(not(feature = "wrong"))]
pub const fn now() -> Option<Wrong> {
    None
}

/// The right expression, or the wrong one of the variant that is set.
macro_rules! rule {
    ($right:expr, $($slip:ident: $wrong:expr),+) => {
        match $crate::wrong::now() {
            $(Some($crate::wrong::Wrong::$slip) => $wrong,)+
            _ => $right,
        }
    };
}
pub(crate) use rule;

/// The 16 bits behind 8100 that stands behind a redundancy tag at 12.
pub(crate) fn tci_behind_tag(frame: &[u8]) -> Option<u16> {
    match frame.get(12..22) {
        Some(&[t0, t1, _, _, _, _, v0, v1, high, low])
            if [t0, t1] == TAG_MARK && [v0, v1] == VLAN_MARK =>
        {
            Some(u16::from_be_bytes([high, low]))
        }
        _ => None,
    }
}

/// What an answer tells of a VLAN tag: the priority and whether one was there.
type OfTag = (u8, bool);

/// What a frame with no VLAN tag gives.
pub(crate) const NO_VLAN_TAG: OfTag = (0, false);

/// The answer of a frame with no VLAN tag in place of this one.
pub(crate) fn without_priority(answer: Arrival) -> Arrival {
    let (priority, vlan_tag) = NO_VLAN_TAG;
    Arrival {
        priority,
        vlan_tag,
        ..answer
    }
}

/// A batch whose answers tell something else of the VLAN tags: the one at each
/// place what `told` says, from what all of them told. Refused frames tell
/// nothing and are left out.
pub(crate) fn priorities(mut done: Batch, told: impl Fn(&[OfTag], usize) -> OfTag) -> Batch {
    let arrivals = done.answers.iter_mut().flatten().flatten();
    let own: Vec<OfTag> = arrivals.map(|a| (a.priority, a.vlan_tag)).collect();
    let arrivals = done.answers.iter_mut().flatten().flatten();
    for (place, arrival) in arrivals.enumerate() {
        (arrival.priority, arrival.vlan_tag) = told(&own, place);
    }
    done
}

/// What the answer before this place told.
pub(crate) fn of_before(own: &[OfTag], place: usize) -> OfTag {
    match place {
        0 => NO_VLAN_TAG,
        _ => own[place - 1],
    }
}

/// What the last VLAN tag up to this place gave.
pub(crate) fn of_last_tag(own: &[OfTag], place: usize) -> OfTag {
    let tag = own[..=place].iter().rfind(|of| of.1);
    tag.copied().unwrap_or(NO_VLAN_TAG)
}

/// What an arrival is refused with, if a group source comes before this refusal.
/// A short frame may have no source at all.
pub(crate) fn group_before(this: Refusal, frame: &[u8], why: Refusal) -> Refusal {
    if why == this && frame.len() >= 12 {
        check_source(frame).err().unwrap_or(why)
    } else {
        why
    }
}

/// The first for a record of rule 3, the second for any other.
pub(crate) fn if_link<T>(stream: Stream, link: T, other: T) -> T {
    match stream.family() {
        Family::Links => link,
        Family::Rest => other,
    }
}

/// The lowest slot in use of rule 3 with this destination.
pub(crate) fn link_to(table: &[Stream], destination: [u8; 6]) -> Option<usize> {
    let mine = |s: &Stream| s.family() == Family::Links && s.destination == destination;
    table.iter().position(|s| s.is_in_use() && mine(s))
}

/// How many numbers of its ring a link passes over. A 0 passes over none.
pub(crate) fn passed_over(last: u16, number: u16) -> u64 {
    match number {
        0 => 0,
        _ => u64::from(steps(last, number) - 1),
    }
}

/// An arrival that takes slots of rule 3 for match ones.
pub(crate) fn links_heard(
    table: &mut [Stream],
    network: u8,
    frame: &[u8],
    room: &mut [u8],
) -> Result<Arrival, Refusal> {
    let mut tried = table.to_vec();
    for link in tried.iter_mut().filter(|s| s.family() == Family::Links) {
        link.rule = Stream::MATCH;
    }
    let answer = arrival(&mut tried, network, frame, room)?;
    let slot = answer.slot;
    table[slot] = Stream {
        rule: table[slot].rule,
        ..tried[slot]
    };
    Ok(answer)
}

/// The slots in front of the first one in use with another VLAN id.
pub(crate) fn until_other_vlan(table: &[Stream], vlan: u16) -> &[Stream] {
    let other = table.iter().position(|s| s.is_in_use() && s.vlan != vlan);
    &table[..other.unwrap_or(table.len())]
}

/// The lowest slot in use with the VLAN id.
pub(crate) fn first_with_vlan(table: &[Stream], vlan: u16) -> Option<usize> {
    table.iter().position(|s| s.is_in_use() && s.vlan == vlan)
}

/// A stream opened in a slot whose old record keeps its state.
pub(crate) fn keep_state(opened: Stream, old: Stream) -> Stream {
    Stream {
        anchor: old.anchor,
        history: old.history,
        take_any: old.take_any,
        remaining: old.remaining,
        early: old.early,
        ..opened
    }
}

/// A stream opened in a slot whose old record keeps its counters.
pub(crate) fn keep_counters(opened: Stream, old: Stream) -> Stream {
    Stream {
        arrivals: old.arrivals,
        passed: old.passed,
        discarded: old.discarded,
        rogue: old.rogue,
        out_of_order: old.out_of_order,
        lost: old.lost,
        resets: old.resets,
        ..opened
    }
}

/// Does the number that is d from the anchor stand among the n oldest places of
/// the window, which are older than the first one handed up?
pub(crate) fn is_older(stream: &Stream, d: i32) -> bool {
    i32::from(stream.early) - d >= i32::from(stream.window)
}

/// A body of one kind and of this length with another kind in its place.
pub(crate) fn as_kind(other: u8, kind: u8, length: usize, body: &[u8]) -> Option<Vec<u8>> {
    let mut changed = body.to_vec();
    let first = changed.first_mut()?;
    if body.len() != length || *first != kind {
        return None;
    }
    *first = other;
    Some(changed)
}

/// The history with its first word cleared.
pub(crate) fn without_first_word(history: &History) -> History {
    let mut left = *history;
    left[0] = 0;
    left
}

/// Frees the lowest slot in use.
pub(crate) fn close_lowest(table: &mut [Stream]) {
    if let Some(stream) = table.iter_mut().find(|stream| stream.is_in_use()) {
        stream.in_use = 0;
    }
}

/// What an open is refused with, if 9 comes before this refusal. A table of no
/// slots gives 9 for the settings alone.
pub(crate) fn settings_before(settings: Settings, why: Refusal) -> Refusal {
    match table::open(&mut [], settings) {
        Err(Refusal::BadSetting) => Refusal::BadSetting,
        _ => why,
    }
}

/// An arrival that asks for no room if the frame is a duplicate.
pub(crate) fn duplicate_without_room(
    table: &mut [Stream],
    network: u8,
    frame: &[u8],
    room: &mut [u8],
) -> Result<Arrival, Refusal> {
    let mut tried = table.to_vec();
    let ample = &mut [0; Stream::MAX_FRAME];
    let answer = arrival(&mut tried, network, frame, ample)?;
    if answer.verdict == Verdict::Duplicate {
        table.copy_from_slice(&tried);
        return Ok(answer);
    }
    arrival(table, network, frame, room)
}

/// Writes the length 0, where there is room for it. Answers the bytes taken.
pub(crate) fn length_of_nothing(length_bytes: &mut [u8]) -> usize {
    length_bytes.fill(0);
    length_bytes.len()
}

/// One frame of a batch whose room is all that is left. Where it then does not
/// fit behind its length bytes, its end is missing.
pub(crate) fn forgets_length(
    table: &mut [Stream],
    network: u8,
    frame: &[u8],
    left: &mut [u8],
) -> (Result<Arrival, Refusal>, usize) {
    let mut room = left.to_vec();
    let answer = arrival(table, network, frame, &mut room);
    let length = match answer {
        Ok(Arrival {
            verdict: Verdict::HandedUp { length },
            ..
        }) => length,
        _ => return (answer, 0),
    };
    let taken = left.len().min(LENGTH_BYTES + length);
    let (length_bytes, packed) = left[..taken].split_at_mut(LENGTH_BYTES);
    length_bytes.copy_from_slice(&(length as u16).to_be_bytes());
    packed.copy_from_slice(&room[..packed.len()]);
    (answer, taken)
}

/// What a send or a turn from PRP is refused with, if 8 comes before this
/// refusal. Those that come behind it have higher numbers.
pub(crate) fn room_before(this: Refusal, why: Refusal, room: Result<(), Refusal>) -> Refusal {
    match room {
        Err(too_small) if why >= this => too_small,
        _ => why,
    }
}

/// What a send is refused with, if its limit is that of a tagged frame. The
/// place aside is then too small for some.
pub(crate) fn too_long_to_tag(frame: &[u8], why: Refusal) -> Refusal {
    match why {
        Refusal::FrameTooLong if frame.len() <= Stream::MAX_FRAME => Refusal::OutputTooSmall,
        _ => why,
    }
}

/// Writes these bytes to the start of the output, where there is room for them.
pub(crate) fn write_where_room(output: &mut [u8], bytes: &[u8]) {
    if let Some(start) = output.get_mut(..bytes.len()) {
        start.copy_from_slice(bytes);
    }
}

/// What a turn from PRP is refused with where a frame is too short for its
/// trailer, if a VLAN tag adds nothing to the shortest frame.
pub(crate) fn short_without_vlan(frame: &[u8], width: usize) -> Refusal {
    if frame.len() < 14 + width {
        Refusal::FrameShort
    } else {
        Refusal::NoTrailer
    }
}

/// The kind of trailer that the frame's last two bytes speak for.
pub(crate) fn kind_by_suffix(frame: &[u8]) -> Trailer {
    if frame.ends_with(&[0x88, 0xFB]) {
        Trailer::Of2012
    } else {
        Trailer::First
    }
}

/// Refusal 13, asked of the frame without its tag.
pub(crate) fn refuse_tagged(bare: &[u8], header: Header) -> Result<(), Refusal> {
    if carries_tag(bare, header) {
        Err(Refusal::AlreadyTagged)
    } else {
        Ok(())
    }
}
