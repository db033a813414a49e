//! The wrong copies of the calls about flags by name.

/// Declares the faults, and the list of all but `None`.
macro_rules! faults {
    ($(#[$about:meta])* $name:ident { None, $($(#[$doc:meta])* $fault:ident),* $(,)? }) => {
        $(#[$about])*
        #[derive(Clone, Copy, Debug, PartialEq, Eq)]
        pub enum $name {
            None,
            $($(#[$doc])* $fault),*
        }

        impl $name {
            pub const ALL: &[Self] = &[$(Self::$fault),*];
        }
    };
}

faults! {
    /// In what way a copy of the four calls (02, A7) is wrong. The planner below them is the right
    /// one. The right calls are given `None` as a constant and inlined, so that they pay nothing for
    /// the others; the copies are given theirs when they run, so that all of them are compiled once.
    NamesFault {
        None,

        // Of the records in a sector.
        /// Of the mark only 4E is asked for.
        HalfMarkAsked,
        /// A record of length 0 is taken.
        Length0Taken,
        Length1Refused,
        Length32Refused,
        Length33Taken,
        /// 1F is taken in a record's name.
        Byte1fTaken,
        SpaceRefused,
        Byte7eRefused,
        /// 7F is taken in a record's name.
        Byte7fTaken,
        /// A record that the sector's end cuts off is taken.
        RecordPastEndTaken,
        /// A record that ends at the sector's last byte isn't.
        RecordAtEndRefused,
        /// Records are read on behind a bad place, by stepping over it bytewise.
        ReadOnBehindBadPlace,
        /// One erased byte between records is stepped over.
        ErasedSteppedOver,

        // Of a name that is asked for.
        EmptyNameAsked,
        Name33Asked,
        Byte1fAsked,
        Byte7fAsked,
        /// 18 looks at the length alone.
        LengthAloneAsked,
        /// A bad name is told to be unread instead of refused.
        BadNameUnread,
        /// The beginning of a record's name is taken as the name.
        BeginningIsName,
        /// A record's name that the name begins with is taken as the name.
        LongerIsName,
        /// The last byte of a name isn't compared.
        LastByteNotCompared,
        /// Great and small letters are taken as the same.
        CaseFolded,
        /// The last record isn't looked at.
        LastRecordNotSeen,
        /// Only the first record is looked at.
        FirstRecordOnly,

        // Of the list.
        EmptyNameListed,
        Name32ListedRefused,
        Name33Listed,
        Byte1fListed,
        Byte7fListed,
        EmptyListRefused,
        Names4097Taken,
        Names4096Refused,
        /// A last name that is cut short is taken as it stands.
        CutNameTaken,
        /// A length byte alone at the end is left out.
        LengthAtEndLeftOut,
        /// 19 compares each name with the next one only.
        NeighboursCompared,
        /// 19 compares only the names of read scenes.
        ReadNamesCompared,
        /// 19 compares names without regard to great and small letters.
        ListCaseFolded,
        /// 19 compares the first name with none.
        FirstNotCompared,
        /// 19 compares as many bytes as the shorter name has.
        BeginningIsTwice,

        // Of the first plan and the second.
        /// All goes in by one plan.
        MarksInFirstPlan,
        /// The marks stay in the first plan as they stand, so that dirt there is no 8.
        MarkKeptInFirstPlan,
        /// The second plan is given when the names stand, whether or not the lengths do.
        LengthsNotAskedFor,
        /// The second plan is given when the lengths stand, whether or not the names do.
        NamesNotAskedFor,
        /// The second plan is given when the last byte of each name stands.
        LastByteAskedFor,
        /// The second plan is given only where nothing else stands, so not behind a cut in it.
        FirstPlanUntilExact,
        /// Only the new record's own bytes are wanted.
        OwnBytesWanted,
        /// FF isn't wanted behind the records.
        RestNotWanted,
        /// The first plan wants a new length and name and nothing else, the second the new record.
        MarkNotLookedAt,

        // Of marking.
        /// A name that is there is refused by 20 where the sector is full.
        PresentRefusedFull,
        /// A name that is there is appended again.
        PresentAppended,
        /// For a name that is there FF is wanted behind the records.
        PresentWantsErased,
        /// A name that is there is the empty script, at rest or not.
        PresentNotPlanned,
        /// 20 comes where the last byte would be used.
        FullOneEarly,
        /// 20 doesn't come where one byte is too much.
        FullOneLate,
        /// 20 is for the longest record, whatever the name is.
        FullForLongest,
        /// The record is written over what stands at the sector's start.
        WrittenOverFirst,
        /// 20 comes before 18.
        FullBeforeBadName,
        /// 7 comes before 20.
        RestBeforeFull,
        /// 7 comes before 18.
        RestBeforeBadName,
        /// What is refused clears the buffer.
        RefusedWrites,
        /// A question is refused while the chip is busy.
        BusyQuestionRefused,
        /// A question is refused in AAI and in power-down.
        ActiveQuestionRefused,

        // Of sectors.
        /// Any multiple of 256 is taken as a sector's start.
        PageTakenAsSector,
        /// A sector's start is taken modulo the chip's size.
        SectorModuloSize,
        /// 15 looks at the first of two sectors alone.
        FirstSectorAsked,
        /// 15 looks at the second of two sectors alone.
        SecondSectorAsked,
        /// 15 comes before 2.
        SectorBeforeArray,
        /// One sector for both is taken.
        EqualSectorsTaken,
        /// 6 comes before 15.
        EqualBeforeSector,
        /// 6 comes after 18.
        EqualAfterBadList,
        /// 6 comes after 19.
        EqualAfterTwice,
        /// Everything is planned for address 0.
        PlannedAtAddress0,

        // Of the move.
        MovedInReverse,
        /// All scenes of the list are moved, read or not.
        UnreadMoved,
        /// 1 is read.
        OneIsRead,
        /// A scene's bit is counted from the top.
        SceneBitFromTop,
        /// The list's first name is that of scene 1.
        PositionsFrom1,
        /// A position is cut to 8 bits.
        PositionCutTo8Bits,
        /// A read scene past the list is left out.
        PastListLeftOut,
        /// A read scene just behind the list isn't looked at.
        JustPastLeftOut,
        /// Scene 4,095 isn't looked at where it is past the list.
        LastSceneLeftOut,
        /// All of the book's sector is looked at for read scenes past the list.
        BookTooLong,
        /// A read scene past the list comes after 19.
        PastListAfterTwice,
        /// 19 comes before 18.
        TwiceBeforeBadList,
        /// 19 comes before the 18 of over 4,096 names.
        TwiceBeforeTooMany,
        /// 20 comes before 19.
        FullBeforeTwice,
        /// The records go behind those that stand in the sector.
        MovedBehindOthers,
        /// What doesn't fit is left out.
        MovedAsFarAsFits,

        // Of the way back.
        /// Only the book's 512 bytes are wanted.
        BookAloneWanted,
        /// What the book had stays.
        BookKept,
        /// The names on the list that have no record are set read.
        OthersSetRead,
        /// The list's first name is that of scene 1, on the way back alone.
        BackPositionsFrom1,
        /// A read scene of the target past the list is 18.
        BackLooksPastList,
        /// Different names are counted, not records.
        UnlistedNamesCounted,
        /// The names of the list that have no record are counted.
        UnrecordedCounted,
        /// What isn't on the list is counted with a refusal too.
        UnlistedWithRefusal,
        /// What isn't on the list isn't counted with an empty script.
        UnlistedNotWithEmpty,
        /// A record that isn't on the list ends the way back.
        UnlistedEnds,
        /// Source and target change places.
        BackSectorsSwapped,
}
}

impl NamesFault {
    /// Whether this is the fault of a copy.
    #[inline(always)]
    pub(crate) fn is(self, fault: Self) -> bool {
        self as u8 == fault as u8
    }
}
