//! Refusals: a number and a place, and inside the program the clause of the
//! paper that refused. What is written has clauses of its own.

macro_rules! clauses {
    ($($group:ident { $($number:literal: $($name:ident)*;)* })*) => {
        /// Every separate clause of the table of refusals.
        #[derive(Clone, Copy, Debug, PartialEq, Eq, Hash, PartialOrd, Ord)]
        pub enum Clause { $($($($name,)*)*)* }

        impl Clause {
            pub const ALL: &'static [Clause] = &[$($($(Clause::$name,)*)*)*];

            $(pub const $group: &'static [Clause] = &[$($(Clause::$name,)*)*];)*

            pub fn number(self) -> u32 {
                match self { $($($(Clause::$name => $number,)*)*)* }
            }
        }
    };
}

clauses! {
    READING {
        1: LengthPastBuffer LengthPastLargest;
        2: FileUnderTen FileNotMmmd;
        3: FileSizeTooSmall FileSizeTooLarge;
        4: TopHeaderUnderEight TopSizePastEnd TrackHeaderUnderEight TrackSizePastEnd;
        6: TopIdAgain TrackIdAgain;
        5: NoFirstChunk FirstNotContents ContentsUnderFive;
        7: NoTrack;
        8: ScoreEmpty ScoreFormatOverTwo ScoreUnderSix ScoreSequenceType ScoreTimeBaseD
           ScoreTimeBaseG PcmEmpty PcmFormatOverZero PcmUnderSix PcmSequenceType
           PcmTimeBaseD PcmTimeBaseG;
        9: ScoreChunkNotAllowed PcmChunkNotAllowed ScoreSequenceMissing PcmSequenceMissing
           WaveMissing;
        10: SetupEmpty SetupNotExclusive SetupSizeUnderThree SetupCut SetupWithoutEnd;
        11: SequenceEmpty;
        20: DurationCut EventCut GateCut GateSecondCut ControlCut ControlValueCut
            FullEventCut ExclusiveSizeCut ExclusiveCut;
        21: NoteForbidden WaveNumberZero WaveNumberSixtyThree GateZero;
        22: ControlReserved PcmForbidsControl PcmForbidsShort OtherFullEvent;
        23: DurationSecondByte GateSecondByte ShortValueZero ShortValueFifteen ValueOver127
            ShiftReserved ExclusiveSizeUnderThree ExclusiveWithoutEnd;
        12: SeekEmpty TagCut TagUnknown ColonMissing DataCut SeparatorWrong TagTwice
            TagOutOfOrder LetterOutsideSet;
        13: StreamStartNoAddress StreamStopNoAddress StreamStartOverStop PhraseStartNoAddress
            PhraseStopNoAddress PhraseStartOverStop PositionStartOverLength
            PositionStopOverLength PositionStartOverStop;
        14: LetterWithoutPhrase;
        16: RowOfSomethingElse RowPastLast NoReadableTrack;
        17: OrderListMissing;
        15: ReadTableShort PlayTableShort ItemTableShort EntryTableShort;
        18: PlainOverLargest PlainOverBuffer;
        19: PitchNotNote PitchShiftReserved;
    }
    WRITING {
        6: NumberAgain;
        7: NoTrackGiven;
        8: FixedFormatClosed FixedFormatOverTwo FixedSequenceType FixedTimeBaseD
           FixedTimeBaseG;
        11: NoItems;
        23: WordDurationOver WordMarkDuration;
        22: WordKindZero WordKindWaveInScore WordKindNotInPcm WordKindOver16;
        21: WordNoteForbidden WordNoteOver63 WordWaveZero WordWaveOver62 WordGateZero;
        23: WordGateOver WordValueOver127 WordShiftReserved WordShortZero WordShortOver14
            WordExclusiveSmall WordExclusivePastSource WordExclusiveEndless
            WordStraySound WordStrayLong WordStrayShort WordStrayExclusive WordStrayNop
            WordStrayMark;
        12: EntryUnknown EntryPhraseLetter EntryListLetter EntryTwice EntryOutOfOrder
            EntryPointOver255;
        13: EntryStartNoAddress EntryStopNoAddress EntryStartOverStop
            EntryPhraseStartNoAddress EntryPhraseStopNoAddress EntryPhraseStartOverStop
            EntryPositionStartOverLength EntryPositionStopOverLength
            EntryPositionStartOverStop;
        14: EntryLetterWithoutPhrase;
        24: TracksOverSixteen FileOverLargest FileOverRoom BodyOverLargest BodyOverRoom;
    }
}

#[derive(Clone, Copy, Debug, PartialEq, Eq)]
pub struct Refusal {
    pub clause: Clause,
    pub place: usize,
}

impl Refusal {
    pub fn at(clause: Clause, place: usize) -> Refusal {
        Refusal { clause, place }
    }

    pub fn number(&self) -> u32 {
        self.clause.number()
    }

    /// The same refusal, its place counted from where the body starts.
    pub fn in_body_at(self, start: usize) -> Refusal {
        Refusal::at(self.clause, self.place + start)
    }

    pub fn text(&self) -> String {
        format!("refused {} {}\n", self.number(), self.place)
    }
}
