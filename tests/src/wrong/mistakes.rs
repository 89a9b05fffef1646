//! The mistakes, each with the words it is reported by.

use super::desk::IN_DESKS;
use super::rare::{IN_PLANS, IN_ROUNDS, IN_SHARES};
use super::reading::NUMBERS;

/// Declares an enum whose members have words.
macro_rules! with_words {
    ($(#[$about:meta])* $name:ident { $($member:ident $words:literal,)* }) => {
        $(#[$about])*
        #[derive(Clone, Copy, PartialEq, Debug)]
        pub enum $name { $($member,)* }

        impl $name {
            pub const ALL: &'static [$name] = &[$($name::$member,)*];

            pub fn words(self) -> &'static str {
                match self { $($name::$member => $words,)* }
            }
        }
    };
}

with_words! { Call {
    Check "check",
    Judge "judge",
    Plan "plan",
    Rounds "rounds",
    DeskOpen "desk, open",
    DeskSet "desk, set",
    DeskLock "desk, lock",
    DeskUnlock "desk, unlock",
    DeskRead "desk, read",
} }

with_words! {
    /// About one number of a record.
    Slip {
        BelowAccepted "one below its range accepted",
        LowestRefused "its least value refused",
        HighestRefused "its largest value refused",
        AboveAccepted "one above its range accepted",
        FirstByteIgnored "read without its first byte",
    }
}

with_words! {
    /// About lengths alone; see also `Slip`.
    Length {
        ThousandRefused "a length of 1,000 refused",
        BoundKept "lengths above 1,000 refused",
        Bound4095 "lengths up to 4,095 accepted",
        Bound4096 "lengths up to 4,096 accepted",
        ReadBy12Bits "lengths by their low 12 bits before they are looked at",
        KeptIn11Bits "lengths by their low 11 bits once they are in range",
        KeptIn10Bits "lengths by their low 10 bits once they are in range",
    }
}

with_words! {
    /// About the two editions of the layers field, and vias as they are read; see also `Slip`.
    Edition {
        SecondRefused "tag 7 refused",
        FirstRefused "tag 1 refused",
        SecondAsFirst "tag 7 read with four bytes a layer",
        FirstAsSecond "tag 1 read with six bytes a layer",
        FirstOf6 "tag 1 with a length that only tag 7 has read as tag 7",
        SecondOf4 "tag 7 with a length that only tag 1 has read as tag 1",
        ByLength "a length that both tags have read as tag 7",
        ByLength1 "a length that both tags have read as tag 1",
        Above64Refused "tag 7 with more than 64 bytes refused",
        SixRefused "tag 7 with 6 bytes refused",
        SixteenRefused "tag 7 with 96 bytes refused",
        SeventeenAccepted "tag 7 with 102 bytes accepted",
        NoneAccepted "tag 7 with no bytes accepted",
        Rounded "tag 7 with lengths that are no multiple of 6 accepted",
        MultipleOf2 "tag 7 with lengths that are no multiple of 6 but of 2 accepted",
        Tag6 "tag 6 read as tag 7",
        Tag8 "tag 8 read as tag 7",
        Tag15 "tag 15 read as tag 7",
        ViaFirst "a layer's via read before its units",
        ViaBetween "a layer's via read between its units",
        LittleEndian "vias with their low byte first",
        HighByte "vias by their high byte",
        Unchecked "vias not looked at",
        LastUnchecked "the last layer's via not looked at",
        FirstOnly "the vias of layers after the first not looked at",
        Bound1023 "vias up to 1,023 accepted",
        Bound1024 "vias up to 1,024 accepted",
        Bound4000 "vias up to 4,000 accepted",
        Bound32767 "vias up to 32,767 accepted",
        ReadBy10Bits "vias by their low 10 bits before they are looked at",
        KeptIn9Bits "vias by their low 9 bits once they are in range",
        KeptIn8Bits "vias by their low 8 bits once they are in range",
        IsTwo "a via outside its range gives 2",
        CheckedLate "vias looked at after the driver's field",
        BeforePayload "a via outside its range seen before the payload is known to be there",
        OfNext "each layer with the via of the next",
        OfLayer0 "each layer with layer 0's via",
        OfLastLayer "each layer with the last layer's via",
        Stale "a tag 1 file with the vias of the last tag 7 file",
        FirstHas1 "a tag 1 file with via resistance 1",
        FirstHas1OnLast "a tag 1 file with via resistance 1 on its last layer",
        FirstHasResistance "a tag 1 file with its unit resistances as vias",
        FirstHasCapacitance "a tag 1 file with its unit capacitances as vias",
        FirstHasNext "a tag 1 file with the next layer's unit resistance as via",
    }
}

impl Edition {
    /// Gives vias to tag 1 files alone.
    pub fn is_of_first(self) -> bool {
        use Edition::*;
        matches!(self, FirstHas1 | FirstHas1OnLast | FirstHasResistance | FirstHasCapacitance | FirstHasNext)
    }
}

with_words! {
    /// About timing and costs: made where a plan is judged, or where one is searched for.
    Timing {
        OwnWireOnly "load counting only the path's own wire",
        MaxOverTerminals "max for min over terminals",
        IntrinsicDoubled "intrinsic delay doubled",
        IntrinsicForgotten "intrinsic delay of buffers forgotten",
        GateLoadOnce "gate delay without the factor 2",
        EdgeLoadOnce "edge delay without the factor 2",
        OwnInputInLoad "a buffer's own input capacitance in its root load",
        SecondChildUnseen "load without a node's second child",
        EdgeWithLowerStage "the edge above a buffer paid on the lower stage's layer",
        ShortEdgeFree "edges of length 0 cost nothing",
        FirstSinkOnly "of a stage's sinks only the first counts",
        LastSinkOnly "of a stage's sinks only the last counts",
        SinkBesideBuffer "a sink beside a buffer in its stage does not count",
        BufferBesideSink "a buffer beside a sink in its stage does not count",
        ThirdBuffer "of the buffers that end a stage only the first two count",
        LastTerminal "the last terminal of a stage does not count",
        TreeOrder "stages numbered along the tree, not in file order",
        ArrivalForgotten "arrival time not subtracted",
        ArrivalUnsigned "arrival time without its sign",
        Floats32 "delays in floating point of 32 bits",
        Floats64 "delays in floating point of 64 bits",
        Delays32 "delays by their low 32 bits",
        Delays53 "delays by their low 53 bits",
        EdgeDelay48 "an edge's delay by its low 48 bits",
        // 53 bits hold an edge's largest delay, 8,246,400,000,000,000; and 30 bits the largest load, 1,032,800,000.
        EdgeDelay50 "an edge's delay by its low 50 bits",
        EdgeProduct40 "R x C of an edge by its low 40 bits",
        Load29 "loads by their low 29 bits",
        Times48 "times by their low 48 bits",
        Cost24 "costs of stages by their low 24 bits",
        // Vias.
        NoVias "no vias",
        NoRootVia "no via at the root",
        NoTerminalVia "no via at terminals",
        RootViaOnce "the root's via without the factor 2",
        TerminalViaOnce "the terminal's via without the factor 2",
        RootViaOfDriver "a via at the root of the driver's stage only",
        RootViaOfBuffers "no via at the root of the driver's stage",
        TerminalViaOfSinks "no via at buffers' pins",
        TerminalViaOfBuffers "no via at sinks",
        PinByLowerStage "a buffer's pin climbed from on the layer of the stage that it drives",
        PinByBothStages "a buffer's pin climbed from on the layers of both its stages",
        RootByUpperStage "a buffer's root via paid by the stage above",
        TerminalsOnEveryWay "the vias of all terminals on the way to each",
        RootViaForEachEdge "the root's via once for each edge of the way",
        RootViaForEachChild "the root's via once for each child of the root",
        ViaAboveEachEdge "a via at the upper end of each edge",
        ViaAtSteinerPoints "a via at the lower end of each edge",
        RootViaOwnWay "the root's via with the load of the way alone",
        RootViaFirstChild "the root's via without the load of the root's second child",
        RootViaOwnInput "the root's via with the buffer's own input capacitance",
        TerminalViaWithWire "the terminal's via with the load of the edge above it",
        TerminalViaLoadBelow "a buffer's pin with the load that the buffer drives",
        TerminalViaSecondChild "no via at terminals that are second children",
        TerminalViaAtRoot "no via at terminals directly below the root",
        TerminalViaEmptyEdge "no via at terminals at the end of an edge of length 0",
        RootViaEmptyEdge "no via at a root with only edges of length 0",
        ViaInWire "a via counted as load of each edge",
        ViaInInput "a via counted as load of each terminal",
        ViaInEdges "a via added to the resistance of each edge",
        ViaTimesUnit "a via multiplied by the unit resistance",
        ViaProduct32 "a via's delay by its low 32 bits",
        ViaProduct40 "a via's delay by its low 40 bits",
        ViaSigned32 "a via's delay with its sign in 32 bits",
    }
}

impl Timing {
    /// Does it show on nets with vias alone?
    pub fn is_of_vias(self) -> bool {
        self as usize >= Timing::NoVias as usize
    }

    /// Those that show where a plan is searched for: no plan that meets timing has a delay that 64 bits of floating
    /// point cannot hold.
    fn in_search() -> impl Iterator<Item = Timing> {
        Timing::ALL.iter().copied().filter(|&timing| timing != Timing::Floats64)
    }
}

with_words! {
    /// All others.
    Other {
        // Reading.
        ThreeBeforeFour "3 before 4",
        FiveBeforeFour "5 before 4",
        FiveBeforeThree "5 before 3",
        FourBeforePayload "4 before the payload is known to be there",
        PayloadBeforeTag "payload missing before tag and length",
        TrailingByteIgnored "one or two bytes after the last field ignored",
        TrailingByteIsTwo "a trailing byte with a wrong tag gives 2",
        FirstHeadIsTwo "less than a head with a wrong tag gives 2 where layers or driver are due",
        TagLowBits "tags by their low 3 bits",
        LongNetCut "the length of a net by its low 16 bits",
        PayloadLength8 "payload lengths by their low byte",
        ParentLowByte "parents by their low byte",
        ThirdChildAccepted "a third child accepted",
        ThirdChildAtEnd "a third child refused only at the end",
        OwnParentAccepted "a node that is its own parent accepted",
        SinkParentAccepted "a sink accepted as parent",
        HighParentIsThree "a parent too high gives 3",
        ChildlessAccepted "childless nodes accepted",
        ChildlessBufferAccepted "a childless buffer accepted",
        ChildlessDriverIsOne "layers and driver alone give 1",
        ChildlessLast "only the last node's childlessness looked at",
        Node256Accepted "a 256th node accepted",
        Node255Refused "a 255th node refused",
        Buffer64Accepted "a 64th buffer accepted",
        Buffer63Refused "a 63rd buffer refused",
        LayersLengthIsThree "a wrong layers length gives 3",
        Layers16Refused "16 layers refused",
        Layers17Accepted "17 layers accepted",
        LayersRounded "layers lengths that are no multiple of 4 accepted",
        SinkLength "a sink of a Steiner point's length accepted",
        LastLayerUnchecked "the last layer's units unchecked",
        LastCostUnchecked "the last cost of a record unchecked",
        Counts8 "counts by their low byte",
        DriverNotCounted "the driver not counted among the nodes",
        BuffersForStages "buffers counted for stages",
        // Judging.
        LateIsRefused "negative slack refused by judging",
        LongPlanAccepted "a plan longer than s accepted",
        PlanLength8 "plan and buffer lengths by their low byte",
        LayerCountAccepted "a layer number equal to the layer count accepted",
        LayerSigned "layer numbers from 128 on taken for negative",
        LastLayerOnly "only the last layer number looked at",
        SlackFrom56 "a slack below -2^56 given as -2^56",
        SlackFrom59 "a slack below -2^59 given as -2^59",
        // Planning: refusals.
        ZeroShareRefused "p = 0 refused",
        Share32 "p and q by their low 32 bits",
        Share16 "p and q by their low 16 bits",
        ZeroSlackMisses "a slack of 0 misses",
        MinusOneMeets "a slack of -1 meets",
        AlwaysEleven "refusal 11 for all nets",
        AlwaysTwelve "table short before looking",
        StopsWrongWay "stopping when the required time is below arrival",
        TwelveEarly "12 one column early",
        TwelveLate "12 one column late",
        ColumnsByOneMore "columns by s + 1",
        ColumnsByThreeMore "columns by s + 3",
        ColumnsRoundedUp "columns rounded up",
        Table16 "the length of a table by its low 16 bits",
        // Planning: search.
        BudgetsFromOne "budgets starting at 1",
        SmallerTime "larger cost with smaller required time",
        BranchesShare "branches share a budget",
        BranchesInStep "branches spend alike",
        StaleTable "rows begun with what the table holds",
        BoundShort "V(k) looked for below 2 V(k + 1) + s",
        LastPlan "last plan instead of first",
        LastLayerOfRoot "stage 0 takes its last layer that serves, the others their first",
        LastLayerElsewhere "stage 0 takes its first layer that serves, the others their last",
        LastLayerAtEnd "the last stage takes its last layer that serves",
        LastLayerInSecondBranch "a second branch takes its last layer that serves",
        CheaperTie "of layers that serve the cheapest",
        FarTie "of layers that serve and are no neighbours the higher",
        StaleBuffer "a layer that serves kept where the buffer holds one",
        KTooSmall "k one too small",
        KTooLarge "k one too large",
        KAtMost26 "k at most 26",
        StrictGrain "< for <= in the grain's test",
        GrainWithoutStages "the grain's test without s",
        GrainWithoutMinus "g for g - 1 in the grain's test",
        GrainLeft32 "q x s x (g - 1) by its low 32 bits",
        GrainRight32 "p x g x V(k) by its low 32 bits",
        GrainValue16 "V(k) in the grain's test by its low 16 bits",
        ShareInThousandths "the share rounded to thousandths",
        RoundedByEdge "rounded by edge",
        RoundedUp "rounded up",
        FastestPlan "the fastest plan for every share",
        StageZeroOnly "stage 0 planned well, layer 0 elsewhere",
        FixedPlan "one fixed plan",
        Remembered "the last answer given again for the same net, numbers and lengths",
        // Planning: results and buffers.
        CostMadeUp "g x V(k) given as cost",
        KMadeUp "k made up",
        FloorZero "a floor of 0",
        FloorBesideRefusal "a floor beside a refusal",
        FloorIsCost "the cost as floor",
        FloorTooSmall "a floor one below what the share allows",
        FloorLeast "the least floor that the share allows",
        FloorTooLarge "a floor one above the cheapest plan's cost",
        FloorCheapest "the cheapest plan's cost as floor",
        FloorWithoutGrain "V(k) as floor, without g",
        FloorOfKBefore "the floor of the k before",
        FloorAsWhole "the cost rounded to the grain as a whole for floor, not stage by stage",
        FloorAtShareZero "a floor only at share 0",
        Floor16 "the floor by its low 16 bits",
        Floor24 "the floor by its low 24 bits",
        TableNotCleared "table not cleared after acceptance",
        TailNotCleared "entries beyond the last whole column not cleared",
        UnusedNotCleared "columns that were not needed not cleared",
        TableKeptAfterTwelve "table not cleared after 12",
        TailKeptAfterTwelve "the last entry of the table not cleared after 12",
        BufferUntouched "success with an untouched buffer",
        LaterBytesCleared "later bytes of the buffer cleared",
        // The wall chart.
        ChartOneMore "the chart: one number one too large",
        ChartOneLess "the chart: one number one too small",
        ChartSpareRow "the chart: s + 1 for s + 2",
        ChartOneShare "the chart: qs for 2qs",
        ChartColumnsExchanged "the chart: two columns exchanged",
        ChartLinesExchanged "the chart: two lines exchanged",
        ChartTurned "the chart: s and q exchanged",
        ChartByPlace "the chart: a number wherever the place is below 640",
        ChartMoreLines "the chart: a 65th line",
        ChartMoreColumns "the chart: an 11th column",
        ChartLastLine "the chart: no number for 64 stages",
        ChartLastColumn "the chart: no number for share 1/10",
        ChartFromZero "the chart: s and q from 0 on",
        ChartLow8 "the chart: s and q by their low 8 bits",
        ChartLow16 "the chart: s and q by their low 16 bits",
        ChartLow32 "the chart: s and q by their low 32 bits",
        ChartEntries16 "the chart: numbers by their low 16 bits",
        // What only a host can see.
        EntryBeforeTable "an entry before the table written",
        EntryBeyondTable "an entry beyond the table written",
        ByteBeforeBuffer "a byte before the plan buffer written",
        ByteBeyondBuffer "a byte beyond the plan buffer written",
        JudgedPlanChanged "the plan that is judged changed",
        WordBesideResult "a word beyond a result written",
        HalfResults "only the low halves of results written",
    }
}

with_words! {
    /// About the report over a block.
    Block {
        // Reading the block.
        LongestRefused "a block of 65,536 bytes refused",
        LongerRead "a block of 65,537 bytes read",
        BlockLength16 "the length of a block by its low 16 bits",
        NoNetsRefused "an empty file gives 13",
        TagUnseen "a field of another tag read as a net",
        FirstTagOnly "only the first field's tag looked at",
        BlockTagLowBits "tags by their low 3 bits",
        TagPassedOver "a field of another tag passed over",
        TagEnds "another tag taken for the end",
        HeadEnds "a last head cut short taken for the end",
        PayloadEnds "a last payload cut short taken for the end",
        PayloadRest "a last payload cut short planned as far as it is there",
        NumberOfField "1 or 2 for 13",
        PlannedFirst "13 found after nets were planned, their totals beside it",
        NetsBeside "13 with the number of the nets before it",
        NetLength8 "payload lengths by their low byte",
        NetLengthSigned "a payload of 32,768 bytes or more gives 13",
        LongNetRefused "a payload longer than any net gives 13",
        LongerThanTag1Refused "a payload longer than any net of tag 1 gives 13",
        UnreadableRefused "a net that cannot be read gives 13",
        NoBytesRefused "a net of no bytes gives 13",
        NoBytesSkipped "a net of no bytes not counted",
        NoBytesEnds "a net of no bytes taken for the end",
        LastNetLeftOut "the last net left out",
        // How each net is planned.
        ShareFifth "share 1/5",
        ShareThird "share 1/3",
        ShareNone "share 0",
        ShareTurned "share 4/1",
        TableShorter "a table of 8,191 entries",
        TableLonger "a table of 8,256 entries",
        BufferShorter "a plan buffer of 63",
        WithoutVias "nets planned without vias",
        SecondEditionRefused "nets of tag 7 refused with 2",
        // Nets, planned, refused.
        NetsArePlanned "nets counting the planned ones only",
        AllPlanned "planned counting all nets",
        ShortPlanned "nets refused with 12 counted as planned too",
        PlannedRefusedWith0 "planned nets counted as refused with 0",
        RefusedUp "refused nets counted one number too high",
        RefusedDown "refused nets counted one number too low",
        ShortIsLate "12 counted with 11",
        CountedOnce "each number counted once",
        Counts8Bits "counts by their low byte",
        // Cost.
        CostOfLate "cost of nets refused with 11 counted",
        CostOfShort "cost of nets refused with 12 counted",
        CostAgain "the cost of the net before counted again for a refused one",
        CostOfLast "the cost of the last planned net alone",
        FloorForCost "floors added up for costs",
        Cost32 "cost by its low 32 bits",
        // Lengths.
        LengthsOfLate "lengths of nets refused with 11 counted",
        LengthsOfShort "lengths of nets refused with 12 counted",
        LengthsAgain "the lengths of the net before counted again for a refused one",
        LengthsOfLast "the lengths of the last planned net alone",
        OnParentsLayer "length counted on the parent's layer",
        OnLowerLayer "the edge above a buffer counted on the layer of the stage below",
        ByStage "lengths added up by stage number",
        ByPlace "lengths added up by the layer's place among those that the net takes",
        FromLastLayer "layers counted from the last",
        OnLayer0 "all wire on layer 0",
        SteinerLeftOut "edges to Steiner points left out",
        LastEdgeLeftOut "the last edge of a net left out",
        DriverLeftOut "edges at the driver left out",
        OneEdge "of each stage one edge counted",
        Layer15LeftOut "layer 15 left out",
        CostsForLengths "costs added up for lengths",
        Lengths16 "lengths by their low 16 bits",
        // What only a host can see.
        BlockChanged "the block changed",
    }
}

with_words! {
    /// About planning by rounds; see also `InRounds`.
    Rounds {
        // Refusals.
        ZeroAccepted "r = 0 accepted",
        OneRefused "r = 1 refused",
        MostRefused "r = 29 refused",
        ThirtyAccepted "r = 30 accepted",
        LargeAccepted "every r above 29 taken for 29",
        Asked8 "r by its low 8 bits",
        Asked16 "r by its low 16 bits",
        Asked31 "r by its low 31 bits",
        Asked32 "r by its low 32 bits",
        Asked63 "r by its low 63 bits",
        NineForFourteen "9 for 14",
        NineAbove1000 "9 for r above 1,000",
        EarlyIsTwelve "12 where rounds end early",
        K0IsTwelve "12 where the table is too short for k = 0, whatever r",
        OneColumnIsTwelve "12 where one column is lent",
        NoColumnAccepted "no column accepted",
        // The rounds that are run.
        OneMore "one round too many",
        OneMoreUntold "one round too many, which is not counted",
        OneLess "one round too few",
        OneLessUntold "one round too few, which is counted",
        AllRun "all rounds that fit, whatever r",
        FromK27 "rounds from k = 27 on down",
        FromK0 "rounds from k = 0 on up",
        KSkipped "k = 2 skipped",
        EndsColumnEarly "ended one column early",
        EndsColumnLate "ended one column late",
        Columns16 "the columns that a round needs by their low 16 bits",
        EndsAtFloor "ended when the floor is the cost",
        EndsAtSamePlan "ended by a round that gives the plan of the one before",
        EndsAtDearer "ended by a round that gives a dearer plan than the one before",
        // The plan that is given.
        LastSeen "the last plan instead of the cheapest",
        FirstSeen "the first plan instead of the cheapest",
        DearestSeen "the dearest plan",
        CheaperOfLastTwo "the cheaper plan of the last two rounds",
        CheaperThanBefore "a plan taken where it is cheaper than that of the round before",
        SmallerK "the one of the smaller k among equals",
        FirstOfEquals "the first in plan order among equals",
        MoreSlackOfEquals "the one with more slack among equals",
        ByRounded "rounded cost at each round's k compared instead of true cost",
        ByRoundedAtLast "rounded cost at the last k compared instead of true cost",
        Compared16 "costs compared by their low 16 bits",
        UnfitPlan "the plan of the round that did not fit among those seen",
        // Results.
        CostRounded "g x V(k) of the plan's round as cost",
        CostOfLast "the last plan's cost",
        SlackOfLast "the last plan's slack",
        SlackOfFirst "the first plan's slack",
        FloorZero "a floor of 0",
        FloorIsCost "the cost as floor",
        FloorAsWhole "the cost rounded to the last grain as a whole for floor",
        FloorWithoutGrain "V(k) of the last round as floor, without g",
        FloorOfFirst "the floor of the first round",
        FloorOfBefore "the floor of the round before the last",
        FloorOfPlan "the floor of the plan's round",
        FloorOfUnfit "the floor of the round that did not fit",
        Floor16 "the floor by its low 16 bits",
        Floor24 "the floor by its low 24 bits",
        AskedTold "r told as the rounds run",
        UnfitCounted "the round that did not fit counted",
        LastKTold "the last k for the rounds",
        PlanRoundTold "the rounds up to the plan's for all",
        FromZeroTold "rounds counted from 0",
        // Buffers.
        DirtyIfEarly "table not cleared where rounds end early",
        BufferOfLast "the last plan in the buffer beside the cheapest plan's cost",
        LastPlanBehind "the last plan left in later bytes of the buffer",
    }
}

with_words! {
    /// About the desk.
    Desk {
        SizeWithoutLocks "the size of a desk without its locks",
        // Opening.
        LongestRefused "a net of 4,096 bytes refused",
        LongerOpened "a net of 4,097 bytes opened",
        Length12 "the length of a net by its low 12 bits",
        Length16 "the length of a net by its low 16 bits",
        RefusedClears "a refused opening clears the desk",
        RefusedCloses "a refused opening leaves no stages",
        RefusedCopies "a refused opening leaves the new bytes there",
        RefusedHalf "a refused opening leaves the first half of the new bytes there",
        RefusedLongCopies "an opening refused with 15 leaves the first 4,096 bytes there",
        RefusedUnlocks "a refused opening unlocks all stages",
        RefusedResets "a refused opening puts every stage on layer 0",
        LocksKept "locks kept across opening",
        LastLockKept "the last stage's lock kept across opening",
        PlanKept "the plan kept across opening, as far as there are layers",
        OfBothCleared "opening unlocks and puts on layer 0 only the stages that the net before has too",
        SameNetKept "plan and locks kept where the net is opened that is there",
        NotReplaced "an open desk not replaced",
        NetKept "the net before kept where it has as many stages and layers",
        LayersKept "the number of layers of the net before kept",
        OpenedLocked "opening locks all stages",
        OpenedOnLast "opening puts every stage on the last layer",
        CountsExchanged "the counts of nodes and stages exchanged",
        LayersForStages "the counts of stages and layers exchanged",
        DriverNotCounted "the driver not counted among the nodes",
        CountsOfBefore "the stages of the net before counted",
        // Setting.
        Stage6 "stage numbers by their low 6 bits",
        Stage8 "stage numbers by their low 8 bits",
        Stage16 "stage numbers by their low 16 bits",
        Stage32 "stage numbers by their low 32 bits",
        Stage63 "stage numbers by their low 63 bits",
        Layer4 "layer numbers by their low 4 bits",
        Layer8 "layer numbers by their low 8 bits",
        Layer16 "layer numbers by their low 16 bits",
        Layer32 "layer numbers by their low 32 bits",
        Layer63 "layer numbers by their low 63 bits",
        StageCountAccepted "a stage number equal to the number of stages accepted",
        LastStageRefused "the last stage refused with 7",
        StagesTo64 "stage numbers up to 63 accepted on every net",
        LayerCountAccepted "a layer number equal to the layer count accepted",
        LastLayerRefused "the last layer refused with 8",
        LayersTo16 "layer numbers up to 15 accepted on every net",
        LocksIgnored "a locked stage moved",
        OwnLayerAccepted "a locked stage set to the layer that it has accepted",
        Layer0Accepted "a locked stage set to layer 0 accepted",
        AnyLock "17 where any stage is locked",
        LockOf0 "17 where stage 0 is locked",
        LockBeside "17 where the next stage is locked",
        Locks32 "a lock for stages 32 apart",
        Locks8 "a lock for stages 8 apart",
        LockedMoved "a setting refused with 17 moves the stage",
        LockedUnlocked "a setting refused with 17 unlocks the stage",
        MovedToLast "a setting refused with 8 puts the stage on the last layer",
        LastMoved "a setting refused with 7 puts the last stage on layer 0",
        NextMoved "the next stage moved",
        Stage0Moved "stage 0 moved",
        BesideMoved "the next stage moved too",
        AllMoved "every stage moved",
        NotMoved "no stage moved",
        Layer0Kept "a stage not moved to layer 0",
        Layer15Kept "a stage not moved to layer 15",
        Stage63Kept "stage 63 not moved",
        LowerKept "a stage not moved to a lower layer",
        OthersReset "a setting puts all other stages on layer 0",
        SetLocks "a setting locks the stage",
        SetUnlocksAll "a setting unlocks all stages",
        // Locking and unlocking.
        LockToggles "locking a locked stage unlocks it",
        LockedRefused "locking a locked stage refused with 17",
        LockAll "locking locks all stages",
        LockNext "locking locks the next stage",
        OneLock "locking unlocks all other stages",
        NoLock "locking does nothing",
        Lock63Lost "stage 63 not locked",
        LocksCounted "a stage that is locked twice unlocked by unlocking twice",
        LockIs255 "a lock told as 255",
        LockResets "locking puts the stage on layer 0",
        UnlockToggles "unlocking an unlocked stage locks it",
        UnlockedRefused "unlocking an unlocked stage refused with 17",
        UnlockAll "unlocking unlocks all stages",
        UnlockNext "unlocking unlocks the next stage",
        NoUnlock "unlocking does nothing",
        UnlockResets "unlocking puts the stage on layer 0",
        // Reading.
        ReadOnLayer0 "cost and slack read with every stage on layer 0",
        CostOnLayer0 "the cost read with every stage on layer 0",
        CostStale "the cost of the plan before the last setting",
        SlackStale "the slack of the plan before the last setting",
        LateIsRefused "a plan that misses timing refused with 11",
        SlackFrom0 "a slack below 0 read as 0",
        Slack32 "the slack by its low 32 bits",
        ReadUnlocks "reading unlocks all stages",
        ReadMoves "reading puts stage 0 on layer 0",
        // What is kept outside the record.
        AllOutside "the desk kept outside the record",
        NetOutside "the net kept outside the record",
        PlanOutside "the plan kept outside the record",
        LocksOutside "the locks kept outside the record",
        // What only a host can see.
        ByteBeforeDesk "a byte before the desk written",
        ByteBeyondDesk "a byte beyond the desk written",
        // On records with anything in them.
        CountTrusted "a byte beyond the desk written where the record tells more than 64 stages",
        RubbishIs9 "a record that cannot be judged refused with 9",
        RubbishFigures "cost and slack beside the refusal of a record that cannot be judged",
    }
}

impl Desk {
    /// Shows in runs of calls: not the size, nor what is done with rubbish.
    fn is_of_runs(self) -> bool {
        !matches!(self, Desk::SizeWithoutLocks | Desk::CountTrusted | Desk::RubbishIs9 | Desk::RubbishFigures)
    }
}

/// The refusals of the calls on a desk.
const DESK_REFUSALS: [(Call, &[u8]); 5] = [
    (Call::DeskOpen, &[1, 2, 3, 4, 5, 6, 15]),
    (Call::DeskSet, &[7, 8, 16, 17]),
    (Call::DeskLock, &[7, 16]),
    (Call::DeskUnlock, &[7, 16]),
    (Call::DeskRead, &[16]),
];

/// Mistakes that any planning call can make, and that calls without a fault show: timing, search, buffers.
pub const IN_ANY_PLANNING: &[Other] = &[
    Other::AlwaysEleven,
    Other::ZeroSlackMisses,
    Other::MinusOneMeets,
    Other::BudgetsFromOne,
    Other::SmallerTime,
    Other::BranchesShare,
    Other::BranchesInStep,
    Other::StaleTable,
    Other::BoundShort,
    Other::LastPlan,
    Other::CheaperTie,
    Other::RoundedByEdge,
    Other::RoundedUp,
    Other::FastestPlan,
    Other::FixedPlan,
    Other::TableNotCleared,
    Other::TableKeptAfterTwelve,
    Other::BufferUntouched,
    Other::LaterBytesCleared,
];

/// More mistakes of planning that can be made in rounds too.
const MADE_IN_ROUNDS: &[Other] = &[
    Other::PlanLength8,
    Other::StopsWrongWay,
    Other::ColumnsByOneMore,
    Other::ColumnsByThreeMore,
    Other::ColumnsRoundedUp,
    Other::Table16,
    Other::LastLayerOfRoot,
    Other::LastLayerElsewhere,
    Other::LastLayerAtEnd,
    Other::LastLayerInSecondBranch,
    Other::FarTie,
    Other::StaleBuffer,
    Other::StageZeroOnly,
    Other::Remembered,
    Other::TailNotCleared,
    Other::UnusedNotCleared,
    Other::TailKeptAfterTwelve,
    Other::EntryBeforeTable,
    Other::EntryBeyondTable,
    Other::ByteBeforeBuffer,
    Other::ByteBeyondBuffer,
    Other::WordBesideResult,
    Other::HalfResults,
];

/// One mistake, or none.
#[derive(Clone, Copy, PartialEq, Debug)]
pub enum Mistake {
    None,
    Other(Other),
    Block(Block),
    Rounds(Rounds),
    /// One of `IN_ANY_PLANNING` or `MADE_IN_ROUNDS`, in planning by rounds alone.
    InRounds(Other),
    /// The round at this k is counted, but not run.
    RoundPassedOver(u32),
    /// About the number at a place of `NUMBERS`.
    Number(usize, Slip),
    Length(Length),
    Edition(Edition),
    /// Where plans are judged, or where one is searched for.
    Timing(Call, Timing),
    /// One refusal given before another; 1 stands for 1 to 6.
    Before(Call, u8, u8),
    /// After a refusal.
    TableChanged(Call, u8),
    BufferChanged(Call, u8),
    ResultsBeside(Call, u8),
    /// A result, by its place among the call's, is left unwritten: beside a refusal, or else.
    Unwritten(Call, usize, bool),
    NetChanged(Call),
    /// The slack is one too large, but only there.
    RareNet(Call, usize),
    RareShare(usize),
    RareGrain(u32),
    RareRun(usize),
    /// By the k at which the plan was found, and by the number of rounds run.
    RarePlanRound(u32),
    RareRounds(u64),
    Desk(Desk),
    /// A byte that no call looks at is changed in a desk's record; with this answer, 0 for acceptance.
    DeskChanged(Call, u8),
    RareDesk(usize),
}

impl Mistake {
    /// The mistake in words.
    pub fn words(self) -> String {
        match self {
            Mistake::None => String::from("no mistake"),
            Mistake::Other(other) => String::from(other.words()),
            Mistake::Block(slip) => format!("report: {}", slip.words()),
            Mistake::Rounds(slip) => format!("rounds: {}", slip.words()),
            Mistake::InRounds(other) => format!("rounds: {}", other.words()),
            Mistake::RoundPassedOver(k) => format!("rounds: that at k = {k} counted, but not run"),
            Mistake::Number(place, slip) => format!("{}: {}", NUMBERS[place].0, slip.words()),
            Mistake::Length(slip) => String::from(slip.words()),
            Mistake::Edition(slip) => String::from(slip.words()),
            Mistake::Timing(Call::Judge, timing) => format!("{}, in judging", timing.words()),
            Mistake::Timing(Call::Rounds, timing) => format!("{}, in rounds", timing.words()),
            Mistake::Timing(_, timing) => format!("{}, in the search", timing.words()),
            Mistake::Before(call, early, 1) => format!("{}: {early} before 1 to 6", call.words()),
            Mistake::Before(call, early, late) => format!("{}: {early} before {late}", call.words()),
            Mistake::TableChanged(call, refusal) => format!("{}: table cleared after {refusal}", call.words()),
            Mistake::BufferChanged(call, refusal) => format!("{}: plan buffer touched after {refusal}", call.words()),
            Mistake::ResultsBeside(call, refusal) => format!("{}: results beside refusal {refusal}", call.words()),
            Mistake::Unwritten(call, place, refused) => {
                let when = if refused { "refusal" } else { "acceptance" };
                format!("{}: result {place} not written on {when}", call.words())
            }
            Mistake::NetChanged(call) => format!("{}: net changed", call.words()),
            Mistake::RareNet(call, place) => format!("{}: slack wrong only {}", call.words(), IN_PLANS[place].0),
            Mistake::RareShare(place) => format!("plan: slack wrong only {}", IN_SHARES[place].0),
            Mistake::RareGrain(k) => format!("plan: slack wrong only at k = {k}"),
            Mistake::RareRun(place) => format!("rounds: slack wrong only {}", IN_ROUNDS[place].0),
            Mistake::RarePlanRound(k) => format!("rounds: slack wrong only where the plan is that of k = {k}"),
            Mistake::RareRounds(rounds) => format!("rounds: slack wrong only where {rounds} are run"),
            Mistake::Desk(slip) => format!("desk: {}", slip.words()),
            Mistake::DeskChanged(call, refusal) => {
                format!("{}: a byte of the desk changed with {refusal}", call.words())
            }
            Mistake::RareDesk(place) => format!("desk: slack wrong only {}", IN_DESKS[place].0),
        }
    }

    /// All of them but those of rounds and of desks.
    pub fn all() -> Vec<Mistake> {
        let mut all = vec![];
        all.extend(Other::ALL.iter().map(|&other| Mistake::Other(other)));
        all.extend(Block::ALL.iter().map(|&slip| Mistake::Block(slip)));
        for (place, &(_, width, low, _)) in NUMBERS.iter().enumerate() {
            // Nothing is below 0 but a time.
            let made = Slip::ALL.iter().filter(|&&slip| slip != Slip::BelowAccepted || low > 0 || width == 8);
            all.extend(made.map(|&slip| Mistake::Number(place, slip)));
        }
        all.extend(Length::ALL.iter().map(|&slip| Mistake::Length(slip)));
        all.extend(Edition::ALL.iter().map(|&slip| Mistake::Edition(slip)));
        all.extend(Timing::ALL.iter().map(|&timing| Mistake::Timing(Call::Judge, timing)));
        all.extend(Timing::in_search().map(|timing| Mistake::Timing(Call::Plan, timing)));
        let orders = [(9, 1), (10, 1), (12, 1), (10, 9), (11, 9), (12, 9), (11, 10), (12, 10), (12, 11)];
        all.extend(orders.map(|(early, late)| Mistake::Before(Call::Plan, early, late)));
        all.extend([(7, 1), (8, 1), (8, 7)].map(|(early, late)| Mistake::Before(Call::Judge, early, late)));
        all.extend(Mistake::in_buffers(Call::Plan, &[1, 2, 3, 4, 5, 6, 9, 10, 11, 12]));
        all.extend(Mistake::in_results(Call::Check, &[1, 2, 3, 4, 5, 6], 3));
        all.extend(Mistake::in_results(Call::Judge, &[1, 2, 3, 4, 5, 6, 7, 8], 2));
        all.extend(Mistake::in_results(Call::Plan, &[1, 2, 3, 4, 5, 6, 9, 10, 11, 12], 4));
        for place in 0..IN_PLANS.len() {
            all.extend([Mistake::RareNet(Call::Judge, place), Mistake::RareNet(Call::Plan, place)]);
        }
        all.extend((0..IN_SHARES.len()).map(Mistake::RareShare));
        all.extend((0..=27).map(Mistake::RareGrain));
        all
    }

    /// All that are made in planning by rounds alone.
    pub fn of_rounds() -> Vec<Mistake> {
        let mut all = vec![];
        all.extend(Rounds::ALL.iter().map(|&slip| Mistake::Rounds(slip)));
        all.extend(IN_ANY_PLANNING.iter().chain(MADE_IN_ROUNDS).map(|&other| Mistake::InRounds(other)));
        all.extend((0..=28).map(Mistake::RoundPassedOver));
        let orders = [(14, 1), (10, 1), (12, 1), (10, 14), (11, 14), (12, 14), (11, 10), (12, 10), (12, 11)];
        all.extend(orders.map(|(early, late)| Mistake::Before(Call::Rounds, early, late)));
        let refusals = [1, 2, 3, 4, 5, 6, 14, 10, 11, 12];
        all.extend(Mistake::in_buffers(Call::Rounds, &refusals));
        all.extend(Mistake::in_results(Call::Rounds, &refusals, 4));
        all.extend(Timing::in_search().map(|timing| Mistake::Timing(Call::Rounds, timing)));
        all.extend((0..IN_PLANS.len()).map(|place| Mistake::RareNet(Call::Rounds, place)));
        all.extend((0..IN_ROUNDS.len()).map(Mistake::RareRun));
        all.extend((0..=28).map(Mistake::RarePlanRound));
        all.extend((1..=29).map(Mistake::RareRounds));
        all
    }

    /// Of rounds, those that break the law between calls: with a larger r no dearer plan and no lower floor.
    pub fn on_rounds_law() -> Vec<Mistake> {
        let slips = [
            Rounds::EarlyIsTwelve,
            Rounds::LastSeen,
            Rounds::DearestSeen,
            Rounds::CheaperOfLastTwo,
            Rounds::CheaperThanBefore,
            Rounds::ByRounded,
            Rounds::ByRoundedAtLast,
            Rounds::CostOfLast,
            Rounds::CostRounded,
            Rounds::Floor16,
        ];
        slips.map(Mistake::Rounds).to_vec()
    }

    /// All that are made on desks alone.
    pub fn of_desks() -> Vec<Mistake> {
        let apart = Desk::ALL.iter().filter(|slip| !slip.is_of_runs()).map(|&slip| Mistake::Desk(slip));
        apart.chain(Mistake::of_desk_runs()).collect()
    }

    /// Of these, those that show in runs of calls.
    pub fn of_desk_runs() -> Vec<Mistake> {
        let slips = Desk::ALL.iter().filter(|slip| slip.is_of_runs());
        let mut all: Vec<Mistake> = slips.map(|&slip| Mistake::Desk(slip)).collect();
        all.extend((1..=6).map(|early| Mistake::Before(Call::DeskOpen, early, 15)));
        let orders = [(7, 16), (8, 16), (8, 7), (17, 7), (17, 8)];
        all.extend(orders.map(|(early, late)| Mistake::Before(Call::DeskSet, early, late)));
        all.extend([Call::DeskLock, Call::DeskUnlock].map(|call| Mistake::Before(call, 7, 16)));
        for (call, refusals) in DESK_REFUSALS {
            all.extend(refusals.iter().map(|&refusal| Mistake::DeskChanged(call, refusal)));
        }
        all.push(Mistake::DeskChanged(Call::DeskRead, 0));
        for (call, refusals) in [DESK_REFUSALS[0], DESK_REFUSALS[4]] {
            all.extend(refusals.iter().map(|&refusal| Mistake::ResultsBeside(call, refusal)));
        }
        all.push(Mistake::NetChanged(Call::DeskOpen));
        all.extend((0..IN_DESKS.len()).map(Mistake::RareDesk));
        all
    }

    /// What a planning call leaves after its refusals: 12 alone clears the table.
    fn in_buffers(call: Call, refusals: &[u8]) -> impl Iterator<Item = Mistake> + '_ {
        let tables = refusals.iter().filter(|&&refusal| refusal != 12);
        let tables = tables.map(move |&refusal| Mistake::TableChanged(call, refusal));
        tables.chain(refusals.iter().map(move |&refusal| Mistake::BufferChanged(call, refusal)))
    }

    /// The results of a call, so many, beside its refusals and on acceptance; and the net that it reads.
    fn in_results(call: Call, refusals: &[u8], results: usize) -> Vec<Mistake> {
        let mut all = vec![Mistake::NetChanged(call)];
        all.extend(refusals.iter().map(|&refusal| Mistake::ResultsBeside(call, refusal)));
        for place in 0..results {
            all.extend([true, false].map(|refused| Mistake::Unwritten(call, place, refused)));
        }
        all
    }
}
