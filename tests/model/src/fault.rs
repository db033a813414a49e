//! The wrong copies.

/// In what way a copy of the model is wrong. The right model has `None`; since the fault is a
/// constant parameter, the right model pays nothing for the others.
#[repr(u8)]
#[derive(Clone, Copy, Debug, PartialEq, Eq)]
pub enum Fault {
    None,

    // 01, "Readings that look right and aren't".
    /// AAI keeps address bit 0.
    AddressBitKept,
    /// A programmed byte is stored instead of ANDed.
    ByteStored,
    /// WEL falls when the frame ends and not when BUSY does.
    WelClearedAtFrameEnd,
    /// A long page write runs into the next page.
    PageRunsOn,
    /// 05 may stand between 50 and 01.
    StatusReadKeepsArmed,

    // Others that are easily taken.
    /// An ignored frame leaves armed as it was.
    IgnoredKeepsArmed,
    /// BPL alone, or WP low alone, locks the status register.
    LockedByEither,
    /// A status write leaves WEL as it was.
    StatusWriteLeavesWel,
    /// Asked for a chip of an unknown number, it answers with a new 008A.
    UnknownChipIs008a,
    /// Power-up refuses a state that isn't sound by number 2.
    UnsoundIsRefusal2,
    /// A frame is taken while busy.
    BusyNotAsked,
    /// A program or erase is taken with WEL 0.
    WelNotAsked,
    /// The end of BUSY leaves WEL 1.
    WelKept,
    /// A 06 with more bytes is taken.
    LongerEnableTaken,
    /// Protection begins a sector above the first protected address.
    FirstSectorUnprotected,
    /// BP2 protects the 05PA.
    Bp2Protects05pa,
    /// On the 008A level 001 protects half a block, and each further one double that.
    HalfBlocksProtected,
    /// Level 000 of the 008A protects the upper block.
    Level0ProtectsABlock,
    /// Levels 110 and 111 of the 008A protect nothing.
    Levels6And7Open,
    /// Left doesn't fall with the time that passes.
    NoTimePasses,
    /// The end of a script is told as a refusal, with number 0.
    EndIsARefusal,
    /// The 05PA loses its protection bits at power-off.
    ProtectionForgotten,
    /// AAI goes on at the first protected address.
    AaiPassesBorder,
    /// The end of BUSY in AAI clears WEL.
    WelClearedInAai,
    /// The first byte for a page offset counts, not the last.
    FirstPageByteCounts,
    /// The mask of a wrapped page goes by the order sent.
    MaskInSentOrder,
    /// A byte outside the region is sent as the array has it, not as FF.
    OutsideByteFromArray,
    /// One unchanged word between two runs is bridged.
    GapBridged,
    /// Step 1 comes wherever the region touches protected bytes, changing or not.
    UnchangedByteUnprotected,
    /// Step 4 brings BPL back as 0.
    LockNotRestored,
    /// A plan looks at BPL and WP before it looks at the wanted bits.
    LockCheckedBeforeBits,
    /// A script's output is checked before its records: 4 comes before 11 and 12 to 14.
    OutputCheckedBeforeRecords,
    /// The microseconds waited are summed in 32 bits.
    WaitsWrap,

    // Of a bad record (02, A1).
    /// A record's frame may be empty.
    EmptyFrameAccepted,
    /// A record's frame may have 4,102 bytes.
    LongerFrameAccepted,
    /// A frame's length is checked after the rest of its record: 14 where both 13 and 14 hold.
    LengthCheckedLast,
    /// One byte left is an unknown mark, 12, unless it is 5A.
    LastByteUnknownMark,
    /// A wait with fewer than four bytes is 12.
    ShortWaitUnknownMark,
    /// An offset past the end is 12.
    PastEndUnknownMark,
    /// The offset is that of the last good record.
    OffsetOfLastGood,
    /// The offset of a wrong length is where the length stands, not the mark.
    OffsetOfLength,
    /// A bad record's offset is given with 1, too.
    OffsetWithState,
    /// A bad record's offset is given with 2, too.
    OffsetWithArray,
    /// With 4 comes an offset, the one behind the last record.
    OffsetWithOutput,
    /// A survey that is refused counts the records before the bad one.
    RefusedSurveyCounts,

    // Of what a plan comes to (02, A8).
    /// A plan's frames are counted without those of steps 1 and 4.
    StepsNotCounted,
    /// Every word is a run of its own.
    RunNeverContinued,
    /// A word waits its time for each of its two bytes.
    WordWaitsTwice,
    /// A page is sent whole, with FF for the bytes outside the region.
    WholePageSent,
    /// Changing bytes of a page with others between them are sent one stretch after another.
    StretchesSentApart,
    /// Steps 1 and 4 stand around every page.
    PagesUnprotectedApart,

    // Of the flag book (02, A2).
    /// A scene's bit is counted from the top.
    SceneBitFromTop,
    /// The questions take 1 as read.
    OneIsRead,
    /// A mark turns the scene's bit over, so that a repeat takes it back.
    RepeatToggles,
    /// 4,096 is taken as a scene, the first one.
    Scene4096Taken,
    /// 4,095 is refused.
    Scene4095Refused,
    /// A scene's number is cut to 16 bits.
    SceneCutTo16Bits,
    /// Any multiple of 256 is taken as a sector's start.
    PageTakenAsSector,
    /// The chip's size is taken as a sector's start; what then comes is 6.
    SizeTakenAsSector,
    /// A sector's start is taken modulo the chip's size, as a frame's address is.
    SectorModuloSize,
    /// A mark's 7 comes before 15.
    BookCheckedAfterRest,
    /// 15 comes before 2.
    BookCheckedBeforeArray,
    /// A question is refused while the chip is busy.
    BusyQuestionRefused,
    /// The scenes of the last byte aren't counted.
    LastByteNotCounted,
    /// All bytes of the sector are counted.
    WholeSectorCounted,
    /// The last scene of a list is dropped.
    LastSceneDropped,
    /// A list is cut off at 4,096 entries.
    LongListCut,
    /// The bytes that a mark starts from are those at address 0.
    BookFromAddress0,
    /// A mark is planned for address 0.
    MarkedAtAddress0,
    /// A mark of nothing new is the empty script, at rest or not.
    NothingNewNotPlanned,
    /// A mark that is refused clears its buffer.
    RefusedMarkWrites,

    // Of which bytes the chip drives (02, A10).
    /// Driven is what isn't FF in the output: an FF that the chip drives is silent.
    DrivenErasedSilent,
    /// The bytes before an answer are driven.
    HeaderDriven,
    /// 0B's byte 4 is driven.
    DummyDriven,
    /// 9F's FF from byte 4 on is driven.
    JedecTailDriven,
    /// AB on the 05PA is driven from byte 1, the FF before the signature too.
    SignatureDrivenFrom1,
    /// A taken frame that has no answer is driven.
    SilentCommandDriven,
    /// An ignored frame is driven, every byte of it.
    IgnoredDriven,
    /// An ignored frame is driven where a taken one with its opcode would be.
    DrivenByOpcode,
    /// A silent byte is 00 in the output.
    SilentReadsZero,
    /// Driven is FF and not 01.
    DrivenIsFf,
    /// Of an interrupted frame nothing is driven.
    CutFrameSilent,
    /// The two slices of an interrupted frame are swapped.
    CutSlicesSwapped,
    /// A script lays what it says of a frame's bytes where the next frame's belongs.
    DrivenFrameLate,
    /// A frame's 4 comes only where both slices are wrong.
    OneLengthEnough,
    /// A frame's 4 asks for the length of the second slice alone.
    OutputLengthNotAsked,
    /// A frame's 4 asks for the length of the first slice alone.
    DrivenLengthNotAsked,
    /// A second slice that is longer than the frame is taken.
    LongerDrivenTaken,
    /// The second slice's length isn't asked for where the opcode has no answer.
    SilentLengthNotAsked,
    /// A script's 4 comes only where both slices are wrong.
    ScriptOneLengthEnough,
    /// A script's 4 asks for the length of the second slice alone.
    ScriptOutputLengthNotAsked,
    /// A script's 4 asks for the length of the first slice alone.
    ScriptDrivenLengthNotAsked,
    /// A second slice that is longer than a script's frames is taken.
    ScriptLongerDrivenTaken,
    /// The second slice's 4 comes before 3.
    DrivenCheckedBeforeFrame,
    /// The second slice's 4 comes behind 5.
    DrivenCheckedAfterMask,
    /// The second slice's 4 comes before 11 and 12 to 14.
    DrivenCheckedBeforeRecords,
    /// A frame that is refused clears the second slice.
    RefusedFrameClearsDriven,
    /// An interrupted frame that is refused does.
    RefusedCutClearsDriven,
    /// A script that is refused does.
    RefusedRunClearsDriven,

    // Of the status write that takes time (02, A4).
    /// It takes none on the 05PA either.
    StatusAtOnceOn05pa,
    /// It takes time on the 008A too.
    StatusCycleOn008a,
    /// It takes the sheet's longest time.
    StatusTime15000,
    /// It takes the longest time at a low voltage.
    StatusTime40000,
    /// While it runs BP is the new one already.
    BpAtOnce,
    /// TB is.
    TbAtOnce,
    /// BPL is.
    BplAtOnce,
    /// While it runs 05 shows the new bits.
    PendingShown,
    /// While it runs other frames are taken, and protection goes by the new bits.
    PendingProtectsAtOnce,
    /// A plan is made while it runs.
    PlannedWhilePending,
    /// Its byte is kept with bits 0, 1 and 6.
    PendingBitsRaw,
    /// Its byte is kept without TB.
    TbNotPending,
    /// WEL falls when its frame ends.
    StatusCycleClearsWel,
    /// WEL is still 1 when its time is over.
    StatusCycleLeavesWel,
    /// It is still pending when its time is over.
    PendingKept,
    /// Its bits are still kept when its time is over.
    PendingBitsKept,
    /// Power-up takes the pending bits.
    PowerUpTakesPending,
    /// Power-up leaves it pending.
    PowerUpStaysPending,
    /// A state may have it pending at rest.
    PendingAtRestSound,
    /// A state may have bits that aren't pending.
    BitsWithoutPendingSound,
    /// A state may have bits 0, 1 and 6 among the pending ones.
    PendingBitsUnmasked,
    /// A state of the 008A may have it pending.
    PendingOn008aSound,
    /// A state with it pending may have 5,000 microseconds left at most.
    PendingBounded,
    /// A state with it pending has a bit among the pending ones.
    PendingNothingUnsound,
    /// Cut with a mask byte, each bit is the new one where that has 1.
    StatusMaskBitwise,
    /// Cut with any mask byte but 00, the bits are the new ones.
    StatusMaskNonzero,
    /// It may be cut with no mask: the bits are the old ones.
    EmptyStatusMask,
    /// It may be cut with a mask of two bytes: the first decides.
    TwoByteStatusMask,
    /// Cut with 00, the bits are the new ones.
    StatusMask00Writes,
    /// Cut with FF, the bits are the old ones.
    StatusMaskFfKeeps,
    /// An ignored 01 is cut with a mask byte.
    IgnoredStatusMask,
    /// An 01 of the 008A is.
    StatusMaskOn008a,
    /// An 05 is, while a status write runs.
    StatusReadMask,
    /// A cut one changes the array.
    CutStatusTouchesArray,
    /// Cut with FF, it leaves the chip busy.
    CutStatusStaysBusy,
    /// A plan doesn't wait for step 1's.
    NoWaitAfterStep1,
    /// A plan doesn't wait for step 4's.
    NoWaitAfterStep4,
    /// A plan waits before the 01.
    WaitBefore01,
    /// A plan waits for the sheet's longest time.
    StatusWait15000,
    /// A plan of the 008A has a wait behind each 01, of 0 microseconds.
    StatusWaitOn008a,
    /// A plan's microseconds are told without these waits.
    StatusWaitsNotTimed,
    /// A plan's length is.
    StatusWaitsNotMeasured,
}

impl Fault {
    /// Whether the copy with this fault number has this fault.
    pub(crate) const fn within(self, number: u8) -> bool {
        self as u8 == number
    }
}

/// In what way a copy of the salvage (02, A9) is wrong. It knows no chip, so its copies are of this
/// one call: they compile quicker than copies of the whole model.
#[repr(u8)]
#[derive(Clone, Copy, Debug, PartialEq, Eq)]
pub enum SalvageFault {
    None,

    // Of what a record is.
    /// Of the mark only 4E is asked for.
    HalfMarkAsked,
    /// A length of 0 is taken: a record without a name.
    Length0Taken,
    Length1Refused,
    Length32Refused,
    Length33Taken,
    /// 1F is taken in a name.
    Byte1fTaken,
    /// 20 is not.
    SpaceRefused,
    /// 7E is not.
    Byte7eRefused,
    /// 7F is taken in a name.
    Byte7fTaken,
    /// A record that the sector's end cuts off is kept.
    RecordPastEndKept,

    // Of the walk.
    /// All behind the first place without a record is dropped.
    FirstBadPlaceEnds,
    /// A damaged record is stepped over by its length.
    DamagedSteppedOver,
    /// The walk goes on inside a kept record, so that a record which begins there is kept too.
    KeptWalkedInto,
    /// The second of two equal names is dropped.
    EqualNameDropped,
    /// The sector's last byte is taken as erased.
    LastByteNotSeen,
    /// All from the first FF on is taken as erased.
    FirstErasedEnds,
    /// Trailing FF are listed.
    TrailingErasedListed,
    /// FF between other bytes are not listed.
    ErasedInsideNotListed,

    // Of what is written.
    /// One entry goes from the first dropped byte to the last, across the kept records.
    StretchesJoined,
    /// Each dropped byte has an entry of its own.
    EntryForEachByte,
    LowByteFirst,
    /// Starts are counted from 1.
    CountedFrom1,
    StartCutTo8Bits,
    LengthCutTo8Bits,
    /// The list's buffer is cleared behind the list.
    ListRestCleared,
    /// The kept records' buffer is left as it was behind them.
    KeptRestLeft,
    /// The kept records stay at their places, with FF between them.
    KeptInPlace,
    /// Where nothing is dropped nothing is written.
    GoodNotCopied,

    // Of what is told.
    /// The list's length is told in entries.
    LengthInEntries,
    /// How much is kept is told in records.
    KeptInRecords,
    /// With 10 comes the length that there had to be room for.
    RefusedTellsLength,

    // Of refusals.
    /// 2 asks for the length of the kept records' buffer alone.
    OnlyKeptMeasured,
    /// 2 asks for the length of the sector alone.
    OnlySectorMeasured,
    /// 10 comes before 2.
    RoomCheckedBeforeLengths,
    /// 10 comes when the kept records are written already.
    RoomCheckedLast,
    /// A list with one byte too few is taken.
    OneByteShortTaken,
    /// A list with exactly the room is refused.
    ExactRoomRefused,
}

impl SalvageFault {
    /// Whether the copy with this fault number has this fault.
    pub(crate) const fn within(self, number: u8) -> bool {
        self as u8 == number
    }
}
