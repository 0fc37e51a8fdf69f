//! The plausible faults that can be put, one at a time, into a copy of the evaluator, to show that comparing finds them.

/// Whether the evaluator is true, or bent by one fault.
#[derive(Clone, Copy, Debug, PartialEq, Eq)]
pub struct Bend(Option<Fault>);

impl Bend {
    /// The true evaluator.
    pub const NONE: Bend = Bend(None);

    pub fn by(fault: Fault) -> Bend {
        Bend(Some(fault))
    }

    pub fn is(self, fault: Fault) -> bool {
        self.0 == Some(fault)
    }

    pub fn fault(self) -> Option<Fault> {
        self.0
    }
}

macro_rules! faults {
    ($($name:ident: $words:literal,)*) => {
        /// One plausible fault each; the words say what the bent evaluator does.
        #[derive(Clone, Copy, Debug, PartialEq, Eq, Hash)]
        pub enum Fault { $($name,)* }

        impl Fault {
            pub const ALL: &'static [Fault] = &[$(Fault::$name,)*];

            pub fn words(self) -> &'static str {
                match self { $(Fault::$name => $words,)* }
            }
        }
    };
}

faults! {
    // Loading.
    MarkBeforeShortness: "load: a file under 10 bytes is refused for its mark (3), not its length (2)",
    CountsBeforeVersion: "load: counts (5) are tested before the version (4)",
    LengthBeforeCounts: "load: the length (2) is tested before the counts (5)",
    ProgramRowsOneOver: "load: 1,025 rows are taken",
    VersionOneByte: "load: only the version's first byte is tested",
    TypesOneEarly: "load: 256 types are refused",
    RecordNotCleared: "load: the record's old bytes stay in its unused space",
    RefusedLoadClears: "load: a refused load clears the record",
    ProgramTypeOfLastRow: "load: the program type is the last row's",
    // Types.
    TypePlaceOffByOne: "6: places are counted from 1",
    EqualTypeNamesEarlier: "6: of two equal type rows the earlier is named",
    EqualTypesTaken: "6: equal type rows are taken",
    GroundShallow: "6: every list is ground, whatever its element",
    ForeignResultNotGround: "6: a foreign function's result need not be ground",
    RepeatedNamesTaken: "6: a function type may repeat a name",
    TypeRefersToItself: "6: a type row may refer to itself",
    UnusedPairsTaken: "6: unused pairs need not be zero",
    TupleNamesTaken: "6: a tuple's names need not be zero",
    // Rows.
    UnusedWordTaken: "7: the word of true, false and nil need not be zero",
    LastNameRefused: "7: the name, tool or number 65,535 is refused",
    EmptyMaskIsTyping: "7: a mask of 0 is refused as typing (9)",
    RowsAfterEndTaken: "7: childless rows after the tree's end are taken",
    UnfinishedNamesLastRow: "7: an unfinished tree names the last row, not the row count",
    TypingBeforeFutures: "8: typing (9) is tested before futures (8)",
    // Typing.
    ChildrenJudgedFirst: "9: the last failing row is named, children before parents",
    SpareArgumentsTaken: "9: an application may have more arguments than its function",
    ElseNotTyped: "9: the else branch is not compared",
    IsnilOfAnything: "9: isnil takes any child",
    ListProjectToAnyList: "9: list project may state any list type",
    LetBindsInBound: "9: let binds its name in the bound term too",
    OutermostBinderWins: "9: the outermost binder of a name wins",
    FixNamesNotCompared: "9: fix compares types but not names",
    FixResultNotCompared: "9: fix does not compare results",
    FixOfForeignType: "9: fix's first argument may have a foreign function type",
    MaskBeyondArguments: "9: a mask may reach beyond the arguments",
    ZipFormNotCompared: "9: zip may turn a native function into a foreign one",
    ZipNamesNotCompared: "9: zip may change names",
    // Soundness.
    UnusedSpaceNotTested: "10: the record's unused space need not be zero",
    OpenNumberTwice: "10: the open list need not rise strictly",
    OpenNumberNotBelowNext: "10: an open number may be the next one",
    OpenTypeNotGround: "10: an open call's type need not be ground",
    FutureNotListed: "10: a future need not be listed",
    FutureTypeNotCompared: "10: a future's type need not be the listed one",
    ProgramTypeNotCompared: "10: the first row need not have the program type",
    ProgramRowsInRecord: "10: a record's term may have 1,024 rows at most",
    // Steps.
    FunctionHidesNothing: "steps: a name is replaced below a function that hides it",
    LetHidesNothing: "steps: a name is replaced below a let that hides it",
    LetHidesInBound: "steps: let hides its name in its own bound term",
    LetEvaluatesBound: "steps: let's bound term is evaluated first",
    IfEntersBranch: "steps: a branch of if is entered while the condition waits",
    IsnilEntersCons: "steps: a cons below isnil is entered",
    ProjectEntersTuple: "steps: a tuple below project is entered",
    ProjectPlaceFromZero: "steps: project counts places from 0",
    ListProjectKeepsNilType: "steps: list project of nil keeps the old nil's type",
    ProjectedHeadKeepsType: "steps: list project's new head states the tuple's type",
    ConsTailFirst: "steps: a cons's tail steps before its head",
    OuterValuesSent: "steps: a call is sent when its arguments are cons or tuple, unevaluated inside",
    ArgumentsFromTheRight: "steps: the last foreign argument that can step does",
    ZipHeadStatesList: "steps: the head that zip makes states the list's type",
    IsnilStatesList: "steps: the truth that isnil gives states the list's type",
    FutureStatesFunction: "steps: a future states the function's type",
    FunctionWithFutureWaits: "steps: a function that holds a future is no value",
    ZipEntersUnmasked: "steps: zip evaluates an unmasked argument",
    ZipNilAtOnce: "steps: zip gives nil although another masked argument is unready",
    ZipTriesFirstOnly: "steps: zip waits on its first unready argument though the next could step",
    FixPutsTheFunction: "steps: fix puts the function, not the fix term",
    // Runs.
    BudgetFirst: "run: BUDGET is tested before all else",
    BudgetBeforeRoom: "run: BUDGET is tested before ROOM",
    NumbersBeforeHeld: "run: NUMBERS is tested before HELD",
    HeldOneEarly: "run: HELD at 63 open calls",
    HeldPassedOver: "run: a place that meets HELD is passed over",
    NumbersOneEarly: "run: NUMBERS before 65,535 is sent",
    RoomOneEarly: "run: ROOM at 2,048 rows",
    ReductionsBeforeSends: "run: a send waits while a reduction further right exists",
    EqualCallsShareNumber: "run: equal calls in the term share one number",
    SendIsNoStep: "run: a send is not counted as a step",
    WorkNotCleared: "run: the work buffer is left as it was when nothing is sent",
    SentTailNotCleared: "run: the work buffer's rest is left as it was after a send",
    SentRowsOfFirstArgument: "run: the sent row count is the first argument's",
    OldRowsStay: "run: rows of the old term stay behind a shorter one",
    RefusedRunClearsWork: "run: a refused run clears the work buffer",
    EntryAtTheFront: "run: a new entry goes to the front of the open list",
    // Replies.
    NumberBeforeHeader: "reply: the number (12) is tested before the header (11)",
    ReplyRowsOneOver: "reply: 257 rows are taken",
    KindsBeforeForm: "reply: kinds (14) are tested before form (13)",
    TypingBeforeKinds: "reply: typing (15) is tested before kinds (14)",
    ReplyByOuterType: "reply: only row 0's type is compared",
    ListedTypeNotCompared: "reply: row 0 need not have the listed type",
    ReplyRoomForOne: "reply: 16 counts one future, though more stand in the term",
    ReplyRoomOneEarly: "reply: 16 at 2,048 rows",
    ReplyStopsAtBinders: "reply: futures below binders stay",
    EntryStaysIfNowhere: "reply: the entry stays if the number stands nowhere",
    EntryOutOfOrder: "reply: the last entry fills the gap of the one taken out",
    OldEntryStays: "reply: the last entry's bytes stay behind a shorter list",
    ReplyWorkNotCleared: "reply: the work buffer is left as it was",
    RefusedReplyClearsWork: "reply: a refused reply clears the work buffer",
}
