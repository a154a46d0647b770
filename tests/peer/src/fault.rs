//! Planted faults, to show that a test can fail. Without the feature `faults` none is compiled in.

macro_rules! faults {
    ($($(#[$leak:ident])? $name:ident,)*) => {
        #[derive(Clone, Copy, Debug, PartialEq, Eq)]
        pub enum Fault { $($name,)* }

        impl Fault {
            pub const ALL: &'static [Fault] = &[$(Fault::$name,)*];

            /// Whether the fault makes answers depend on what is hidden.
            pub fn leaks(self) -> bool {
                match self { $(Fault::$name => false $(|| stringify!($leak) == "leak")?,)* }
            }
        }
    };
}

faults! {
    // Lines.
    LongLineAccepted,
    LeadingZeroAccepted,
    BlankColumnIsZero,
    LineEndUnchecked,
    BrokenLineIsMissing,
    OrderBeforeColumns,
    ForeignKindOutOfOrder,
    TypeAboveTopIsUnknown,
    // Values.
    MinusZeroAccepted,
    IntegerLeadingZeroAccepted,
    IntegerSaturates,
    LeastIntegerRefused,
    EmptyOctetsAccepted,
    Text127Accepted,
    TextOrderByCase,
    IntegerOrderByBytes,
    // Blanks in text.
    BlanksDroppedAtLeftOnly,
    BlanksDroppedAtRightOnly,
    BlankRunKept,
    BlankRunTakenAsTwo,
    BlankRunDropped,
    BlanksAloneEmpty,
    BlanksAloneUnfit,
    OctetsDropBlanks,
    PieceTrimmed,
    PieceRunKept,
    StoredBlanksCount,
    OrderCountsBlanks,
    EqualityCountsBlanks,
    CompareCountsBlanks,
    SiblingsCountBlanks,
    ValuesTwiceCountBlanks,
    NamingCountsBlanks,
    #[leak] NamesCountBlanks,
    #[leak] UsersCountBlanks,
    #[leak] ItemValueCountsBlanks,
    BlanksDroppedInAnswers,
    // Directory.
    LongDirectoryAccepted,
    Type64Refused,
    Entry257Accepted,
    Entry257ParentUnjudged,
    Depth9Accepted,
    ParentOutOfOrder,
    SiblingsByBytes,
    SiblingsAcrossTypes,
    ValuesTwiceByBytes,
    NamingByBytes,
    NamingJudgedBeforeParent,
    NamingJudgedBeforeAnyLine,
    NamingJudgedLate,
    // Permissions.
    LongPermissionsAccepted,
    Item257Accepted,
    Mask64Accepted,
    EmptyMaskAccepted,
    LevelThreeAccepted,
    Precedence256Accepted,
    NameForAllUsersAccepted,
    NineParts,
    UnknownTypeInItemAccepted,
    // Request.
    LongRequestAccepted,
    FilterDepth17Accepted,
    FilterLine129Accepted,
    PiecesNotCounted,
    PiecesHaveDepth,
    LimitOnReadAccepted,
    ListOf17Accepted,
    ListWithAllTypesAccepted,
    PartsOf128Accepted,
    NotWithACountAccepted,
    NinePiecesAccepted,
    MisplacedPieceAccepted,
    EmptyPieceAccepted,
    SurplusLineAccepted,
    // Decision function.
    AnyDenialWins,
    SpecificityIgnored,
    ExplicitIgnored,
    AllValuesIsExplicit,
    LevelIgnored,
    LevelCountsForDenials,
    EntryItselfRanksLow,
    BelowExcludesTheName,
    EmptyNameIsEverybody,
    BelowEmptyNameIsNobody,
    UnfitPartSpoilsName,
    EmptyBaseAloneCoversAll,
    BaseCoversBelow,
    ItemValueByBytes,
    #[leak] NamedUserMustExist,
    // Filter.
    AndStopsAtUndefined,
    OrStopsAtUndefined,
    NotUndefinedIsTrue,
    EmptyAndFalse,
    #[leak] FilterMatchOnlyWhenHeld,
    #[leak] FilterValuesUnjudged,
    FilterRefusedIsFalse,
    NotHeldIsUndefined,
    PresentNeedsAValue,
    #[leak] PresentUnjudged,
    UnfitValueIsFalse,
    UnknownTypeIsFalse,
    OctetsOrdered,
    IntegersHaveSubstrings,
    AtLeastIsAbove,
    AtMostIsBelow,
    UnfitPieceIgnored,
    InitialFloats,
    FinalFloats,
    PiecesOverlap,
    // Editions.
    EditionTwoAccepted,
    EditionFromLevel,
    EditionFromParts,
    FirstEditionForAll,
    FirstEditionForNobody,
    FirstEditionOutermostOnly,
    FirstAndByLaterLogic,
    FirstOrByLaterLogic,
    FirstAndUndefinedIsTrue,
    FirstOrUndefinedIsFalse,
    FirstNotUndefinedIsTrue,
    FirstNotUndefinedIsFalse,
    FirstEmptyAndUndefined,
    FirstEmptyOrUndefined,
    FirstUndefinedItemIsFalse,
    #[leak] FirstEditionUnjudged,
    #[leak] FirstEditionAtLevelTwo,
    #[leak] FirstEditionIsNameless,
    // Outcomes.
    #[leak] MatchedNameAsFarAsItExists,
    MatchedNameGivesUp,
    NamePrintedAsAsked,
    #[leak] WithheldEntriesCounted,
    #[leak] WithheldEntriesCut,
    CutAtExactLimit,
    ListIgnoresReturnDn,
    SearchIgnoresReturnDn,
    ReadIgnoresReturnDn,
    ReadServesAsBrowse,
    BaseNeedsBrowse,
    OneLevelIncludesBase,
    SubtreeExcludesBase,
    EmptyListFails,
    AllTypesNeverFail,
    RepeatedTypeUnselects,
    CompareNeedsNoRead,
    ReadRefusalNeedsNoRead,
    TypeWithoutValuesKept,
    CompareSyntaxFirst,
    RootDiscloses,
    // Buffer.
    EqualLengthRefused,
    AnswerCutToRoom,
    AnswerCappedAt65536,
    AnswerWritesBeyond,
    RefusalChangesBuffer,
    RefusalHasLength,
    // Panels.
    PanelEntriesForExchange,
    PanelGetsFour,
    PanelGetsSix,
    PanelLimitZeroIsZero,
    PanelLimitZeroIsNone,
    LargerLimitCounts,
    CutByOwnLimitAlone,
    CutByPanelLimitAlone,
    PanelRoomForExchange,
    PanelRoom1024Refused,
    PanelRoom1025Accepted,
    PanelRoomJudgedLate,
    #[leak] PanelCountsWithheld,
    // Forms.
    EightColumns,
    WideTopTypeKept,
    WideTopTypeSixDigits,
    WideTypeOfEightDigits,
    WideSheetsLonger,
    WidePanelRoomScaled,
    PermissionsStayNarrow,
    RequestStaysNarrow,
    AnswerStaysNarrow,
    AnswerInOtherForm,
    CutMarkedAtNarrowPlace,
    LimitOfSixDigits,
    // Moves.
    MoveUnjudged,
    MoveJudgesFormAlone,
    MoveJudgesNoNaming,
    MoveJudgesOtherForm,
    MoveTrimsValues,
    HighTypesMovedBack,
    Type999NotMovedBack,
    Type1000MovedBack,
    HighTypesBeforeLines,
    MovedLengthBeforeTypes,
    MovedLengthUnlimited,
    Moved65537Accepted,
    Moved65536Refused,
    MovedEqualLengthRefused,
    MovedRoomByOldLength,
    MovedRoomUnjudged,
    MovedLengthOff,
    MoveWritesBeyond,
    MoveRefusalWrites,
    MoveRefusalHasLength,
    // Aliases on the sheet.
    AliasMarkTwoAccepted,
    AliasChildAccepted,
    AliasChildBeforeNaming,
    AliasChildJudgedLate,
    AliasNamingUnjudged,
    AliasNamingBeforeTarget,
    MissingTargetAccepted,
    MissingTargetBeforeNaming,
    MissingPartAccepted,
    SurplusPartAccepted,
    TargetTwiceAccepted,
    TargetOfEntryAccepted,
    TargetOfNoPartsAccepted,
    TargetOfNinePartsAccepted,
    TargetOfUnknownTypeAccepted,
    TargetOutsideSyntaxAccepted,
    ValueAfterTargetAccepted,
    MisplacedTargetNotAllowed,
    MisplacedPartNotAllowed,
    TargetInPermissionsMisplaced,
    TargetInRequestMisplaced,
    // Aliases in names.
    NinthReplacementMade,
    SevenReplacementsAtMost,
    LongNamesReplaced,
    LongNamesCut,
    LongNameIsAliasProblem,
    EightPartsAreTooLong,
    WholeNamesReplacedAlone,
    ProperBeginningsReplacedAlone,
    RestOfNameDropped,
    LoopIsAbsent,
    AliasProblemIsMatched,
    MatchedNameUnreplaced,
    ReadNameUnreplaced,
    ListNameUnreplaced,
    SearchNameUnreplaced,
    ReplacementNeedsRead,
    ReplacementNeedsBrowse,
    ReplacementNeedsDisclosure,
    RequesterReplaced,
    BaseReplaced,
    WhoReplaced,
    SearchFollowsAliases,
    AliasesNotSearched,
    AliasesUnlisted,
    AliasesListedUnmarked,
    FoundAliasMarked,
    #[leak] ReplacedIfTargetExists,
    #[leak] AliasMarkedIfTargetExists,
    #[leak] AbsentTargetIsAliasProblem,
    // Order on the sheet.
    OrderOfTwoAccepted,
    OrderTwiceAccepted,
    OrderBeforeSelectionAccepted,
    OrderAfterSubsetAccepted,
    OrderElsewhereAccepted,
    MisplacedOrderNotAllowed,
    OrderInDirectoryMisplaced,
    OrderInPermissionsMisplaced,
    OrderOfUnknownTypeAccepted,
    OrderOfOctetsAccepted,
    OrderJudgedEarly,
    OrderJudgedAfterRoom,
    // Order of what is found.
    FallingIgnored,
    OrderTurned,
    TiesReversedWhenFalling,
    TiesReversedWhenRising,
    KeylessFirstWhenRising,
    KeylessFirstWhenFalling,
    KeylessReversedWhenFalling,
    KeylessDropped,
    FirstFoundStaysFirst,
    LargestKeyWhenFalling,
    LargestKeyWhenRising,
    FirstValueIsKey,
    LastValueIsKey,
    KeyByFilterMatch,
    KeyOnlyIfSelected,
    #[leak] KeyTypeUnjudged,
    #[leak] KeyValueUnjudged,
    KeysByBytes,
    KeysCountBlanks,
    KeysByCase,
    ShorterKeysFirst,
    IntegerKeysAsText,
    IntegerKeysUnsigned,
    IntegerKeysAsWords,
    LimitBeforeOrder,
    PanelLimitBeforeOrder,
    OrderedNeverCut,
    OrderedCutWhenFull,
    // Outcomes that tell what is hidden.
    #[leak] ReadRefusedTellsExistence,
    #[leak] ReadTellsHeldTypes,
    #[leak] CompareTellsHeldType,
    #[leak] CompareValuesUnjudged,
    #[leak] CompareSyntaxWhenHeld,
    #[leak] ChildrenDisclosed,
    #[leak] RoomJudgedByDirectory,
    #[leak] NothingSucceeds,
    #[leak] AllValuesCounted,
    #[leak] EntryNumberShown,
}

#[cfg(feature = "faults")]
mod switch {
    use super::Fault;
    use std::cell::Cell;

    thread_local! {
        static PLANTED: Cell<Option<Fault>> = const { Cell::new(None) };
    }

    /// Runs `work` with a fault planted.
    pub fn with_fault<T>(fault: Option<Fault>, work: impl FnOnce() -> T) -> T {
        let before = PLANTED.replace(fault);
        let result = work();
        PLANTED.set(before);
        result
    }

    #[inline]
    pub fn planted(fault: Fault) -> bool {
        PLANTED.get() == Some(fault)
    }
}

#[cfg(not(feature = "faults"))]
mod switch {
    use super::Fault;

    /// Runs `work`: no fault is compiled in.
    pub fn with_fault<T>(_: Option<Fault>, work: impl FnOnce() -> T) -> T {
        work()
    }

    #[inline(always)]
    pub const fn planted(_: Fault) -> bool {
        false
    }
}

pub use switch::{planted, with_fault};
