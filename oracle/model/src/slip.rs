// SPDX-License-Identifier: Apache-2.0
//! Deliberate slips: each makes the model wrong in one place. The stored sample
//! must catch every one of them. `Slip::None` is the model.

macro_rules! slips {
    ($slip:ident, $all:ident, $($name:ident: $meaning:literal,)*) => {
        #[derive(Clone, Copy, Debug, PartialEq, Eq)]
        pub enum $slip {
            None,
            $(#[doc = $meaning] $name,)*
        }

        /// Every slip with what it gets wrong.
        pub const $all: &[($slip, &str, &str)] = &[
            $(($slip::$name, stringify!($name), $meaning),)*
        ];
    };
}
pub(crate) use slips;

slips! {
    Slip, SLIPS,
    // Image
    IdentityOfSPair: "an identity is allowed for SPair",
    Children65: "65 children are allowed",
    AnyMemberOrder: "members may stand in any operation order",
    SetCounts: "counts above 1 are allowed for Set",
    WrappedBestSize: "the best-size sum wraps at 32 bits",
    LiteralTwiceInClass: "a literal twice in one class is refused",
    // Terms
    SortedBest: "the children of best terms are sorted",
    RunCountLength: "terms are compared by run count, not by expanded length",
    RunsOneByOne: "run lists are compared run by run, not as expanded lists",
    SignedLiterals: "literal values are compared as signed numbers",
    LiteralsFirst: "literals are ordered before operations",
    UnjoinedRuns: "equal neighbours are not joined",
    SortedSPairMissing: "the children of an SPair result are not sorted",
    SortedSeq: "the children of a Seq result are sorted",
    // Monomials
    NoSelfMonomial: "no class stands for itself",
    SelfOnlyWithoutMember: "a class stands for itself only where it has no member of the operation",
    SelfFirst: "a class as itself comes before its members",
    SetAsOnce: "a class twice in a Set counts once",
    PadLeftOnly: "only the left side is padded",
    SkipAtLimit: "a count of 4,294,967,295 is skipped",
    SkippedCellsEntered: "the cells of a skipped monomial pair are entered",
    OneSidedMissing: "an operation acts only where both classes have a member of it",
    OperationsAsMet: "transport operations come in the order met, left class first",
    // Transport
    StackQueue: "paths come from a stack",
    LooseRelax: "an equal path cost replaces at the sink",
    PathsBySizeThenMass: "path costs are compared by size and then mass",
    VFromOpenCells: "V is taken from cells with capacity above 0 only",
    ColumnsFirst: "a row's columns are tried from the last",
    // Actions
    CrossedFirst: "crossed comes before straight",
    NoCrossed: "SPair is never crossed",
    PrefixArity: "unequal arities are paired up to the shorter",
    Plain0Missing: "Plain0 gives no action",
    TransportFirst: "transport comes before structural actions",
    // Rounds
    MassIgnored: "qualities are compared by size alone",
    LooseReplace: "an equal action replaces",
    SameRound: "qualities improved in the same round are read",
    CutRoundKept: "a round cut short keeps what it improved",
    UnchangedCounted: "the last round, without change, is counted",
    OneRound: "only the first round improves",
    // Checks and limits
    BudgetOneMore: "one check more passes",
    FreeSelfPairs: "pairs of a class with itself spend no check in a round",
    FreeRoundStart: "a round's start spends no check",
    FreeStartingTerms: "starting terms spend no check",
    BuildingPairs: "a run cut in building reports the pairs entered so far",
    CutRootImproved: "a cut run keeps the root's term of the round before",
    Pairs4095: "refusal 12 comes one pair early",
    Pairs4097: "refusal 12 comes one pair late",
    CandidatesCounted: "overtaken candidates are counted for refusal 13",
    RepeatedTermsCounted: "equal terms are counted each time for refusal 13",
    EnterAtRoundEnd: "final terms are entered at the end of a finished round",
    OutputOneLess: "refusal 14 comes one byte early",
    QueryBeforeImage: "refusal 11 comes before refusals 6 to 10",
    // Listing
    BranchesSwapped: "the branches of a marked place are swapped",
    RightToLeft: "the walk goes from right to left",
    // The sample's second part: image, terms, monomials, transport
    Plain1AnyArity: "Plain1 may have any number of children",
    LiteralByValue: "a value in two classes is refused, whatever its operation",
    ValueBeforeOperation: "literals are ordered by value before operation",
    OperationBeforeHead: "terms are ordered by operation before head",
    VariantsFirst: "marked places are ordered before operations",
    LengthBeforeOperation: "terms are ordered by length before operation",
    HeadIgnored: "a marked place is the same term as operation 0 over its branches",
    SelfWithoutIdentity: "a class stands for itself without an identity",
    PadOnce: "a side is padded with the identity once",
    NoReverse: "no reverse edges",
    ReverseNotNegated: "a reverse edge costs what its cell costs",
    ReverseFree: "a reverse edge costs nothing",
    RowsFromLast: "a column's rows are tried from the last",
    SourceFromLast: "the source's rows are tried from the last",
    SinkLast: "a column tries the sink after its rows",
    NoSinkEdges: "the sink leads nowhere",
    QueueOnce: "a node joins the queue once",
    FewTurns: "a search ends after as many turns as nodes",
    FirstRowOnly: "a column leads back to the first row only",
    WithoutOne: "W is F × V",
    WithoutF: "W is V + 1",
    CapacityOfRow: "a cell takes the row's supply",
    // The sample's third part: what is passed over
    SkippedUncounted: "no skipped monomial pair is counted",
    SkippedTwice: "a skipped monomial pair is counted each time",
    SkippedByRows: "skipped monomial pairs with equal rows are counted once",
    SkippedUnpadded: "skipped monomial pairs are told apart as they were before padding",
    SkippedPaddedApart: "a padded pair and the same one without padding are counted apart",
    SkippedOnceAPair: "a skipped monomial pair is counted once for all operations of two classes",
    SkippedOnceAQuery: "a skipped monomial pair is counted once for all pairs of classes",
    SkippedCutNone: "a run cut in building reports none skipped",
    SkippedExpired: "the pair of classes whose check expired is counted too",
    // The checks that passed: the sample's three parts catch these too
    ChecksExpired: "the check that expired is counted too",
    ChecksBudget: "a complete run reports its budget",
    ChecksCutNone: "a run cut in building reports no checks",
    ChecksBuilding: "the checks of building are not counted where it is finished",
    ChecksStartingTerms: "the checks of starting terms are not counted",
    ChecksRoundStart: "the check at a round's start is not counted",
    ChecksSelfPairs: "the checks of pairs of a class with itself are not counted in a round",
    ChecksCutRound: "the checks of a round cut short inside are not counted",
    ChecksQuietRound: "the checks of the last round, without change, are not counted",
    ChecksChangingRounds: "the checks of the rounds with a change are not counted",
    ChecksFirst: "`checks` stands before `skipped`",
}
