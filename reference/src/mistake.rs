//! Planted mistakes, so that a harness can show that it finds them.
//!
//! A monitor with a mistake is the reference with one rule changed, at the
//! place that names the mistake.

#[derive(Clone, Copy, Debug, Default, PartialEq, Eq)]
pub enum Mistake {
    #[default]
    None,
    // The five traps of the paper, in its order.
    /// A move under a house guard raises the cursor level and goes on.
    MoveRaisesCursorLevel,
    /// The level of children is the join of the children present.
    ChildrenLevelFromChildren,
    /// Root sets the cursor level to 0 under a house guard too.
    RootResetsCursorLevel,
    /// A removal is tested against the working node. It stops too often and
    /// leaks nothing: no child or right sibling exists below its neighbour.
    RemovalTestsWorkingNode,
    /// The else branch runs without the guard's level.
    ElseForgetsGuard,
    // Arithmetic.
    MeanRoundsTowardZero,
    MeanOfWrappedSum,
    SumSaturates,
    SumWraps,
    DifferenceWraps,
    LessIsUnsigned,
    /// The mean is 27 where the sum leaves the range.
    MeanOfSumInRange,
    // Other rules of a step.
    /// An expression's level is that of its left operand.
    RightLevelForgotten,
    /// An insertion is not tested against the old neighbour.
    InsertionIgnoresNeighbour,
    /// The level of value is the node's content alone.
    ValueForgetsCursorLevel,
    /// The level of children is the node's list level alone.
    ChildrenForgetCursorLevel,
    /// Commands 1 and 6 are tested with the cursor level, whatever they read.
    CursorLevelAlwaysCounts,
    /// Commands 1 and 6 are tested with E alone.
    ContextForgotten,
    /// Command 15 is tested without the cursor level too.
    SettingForgetsCursorLevel,
    /// The content of a new node is E joined with the context.
    NewContentForgetsCursorLevel,
    /// If and while push L in place of E.
    GuardJoinsCursorLevel,
    /// A move is tested for its rule before its node.
    RuleBeforeMissing,
    /// 27 is given before 21.
    RangeBeforeRule,
    /// 27 is given after 23 and 24.
    RangeAfterRoom,
    /// A guard outside the range wraps.
    GuardsWrap,
    /// 23 is given at 512 live nodes, whatever the places lent.
    TableFullAt512,
    /// A record that stops counts as a step.
    StopCountsStep,
    // An if that comes back.
    /// The context does not join the cursor level.
    BackLevelNotJoined,
    /// The context joins without the block's own guard.
    BackGuardNotJoined,
    /// The end brings back the level alone.
    BackLevelAlone,
    /// The end brings back the node alone.
    BackNodeAlone,
    /// The end brings back the node, with the cursor level 0.
    BackResetsLevel,
    /// The end goes where the node stood among its siblings, whatever stands
    /// there now.
    BackToThePlace,
    /// An end whose node was removed goes on where the cursor is.
    BackGoesOn,
    /// There is no else for it.
    BackHasNoElse,
    // The later moves.
    /// Command 19 joins the existence of the last child in place of the list level.
    LastJoinsExistence,
    /// Command 19 joins nothing.
    LastJoinsNothing,
    /// Command 19 goes to the first child.
    LastIsFirst,
    /// Command 18 goes up from a first child.
    LeftOfFirstIsUp,
    // Counts of children.
    /// A removal leaves the parent's count.
    RemovalNotCounted,
    /// A new node starts with the count of the node that was removed last.
    ReusedCountKept,
    // Sets of parties.
    /// A set lies within another where its number is not above.
    SetsCompared,
    /// A set lies within another where they have a party in common.
    SetsMeet,
    /// Cover replaces the cursor level in place of joining it.
    CoverReplaces,
    /// Cover joins 1, whatever its set.
    CoverIgnoresSet,
    /// Cover joins 1 besides its set.
    CoverAlwaysJoins1,
    /// A line is given only where L is 0, whatever its reader set.
    LineMustBePublic,
    /// A line keeps the set 0.
    LineForAll,
    /// A line keeps its own level in place of the reader set.
    LineKeepsItsLevel,
    /// An insertion is not tested against a neighbour whose set neither contains C
    /// nor is contained in it.
    NeighbourApartUntested,
    /// A mark takes the place of the set beside it.
    MarkHidesSet,
    /// A new node gets no sets.
    NewSetsForgotten,
    /// Byte 5 goes to the list and byte 6 to the content.
    NewSetsExchanged,
    /// The rule of this command is not tested.
    NoRule(u8),
    // Checks of the bytes.
    /// Left is the record just before, if it has the same parent.
    LeftIsPreviousRecord,
    /// The right side is checked for operator 0 too.
    RightSideAlwaysChecked,
    /// A 17th nested block is accepted.
    SeventeenBlocksAccepted,
    // Sets of parties in the bytes.
    /// 4 and 6 are given for levels above 1.
    LevelsAbove1TurnedBack,
    /// The tree rules compare numbers.
    TreeSetsCompared,
    /// Bytes 1, 5 and 6 are spare as before.
    SetsStaySpare,
    // The nodes' order.
    /// A node's parent is sought from the node itself on, so that 13 never comes.
    OrderFromTheNode,
    /// Only the record before and its parent are looked at.
    OrderTwoUp,
    /// 13 is given after 6.
    OrderAfterTree,
    // Spare bytes.
    /// 12 is given after 8.
    SpareAfterBlocks,
    /// The script is searched for spare bytes before variables and nodes.
    SpareScriptFirst,
    /// The left number of kinds 2 and 3 is not taken for spare.
    UnreadNumberForgotten,
    // The cleaner.
    /// The cleaner turns back what today's rules do.
    CleanerHasNewRules,
    /// The last change comes first.
    ReportBackwards,
    /// Sets that only R-12 reads are kept.
    CleanerKeepsSets,
    // The summary.
    /// Only the content is counted.
    SummaryOfContent,
    /// The joined set itself is printed.
    SummaryIsTheSet,
    // The rearranger.
    /// The rearranger turns back what today's rules do.
    ArrangerHasNewRules,
    /// The rearranger takes what the rules before R-4 take.
    ArrangerHasFirstRules,
    /// Records are moved, and their parents keep their numbers.
    ArrangedParentsKept,
    /// Children come from right to left.
    ArrangedRightToLeft,
    /// Level after level.
    ArrangedByLevels,
    // Follow-on scripts.
    /// A script starts where the last one left the cursor, with cursor level 0.
    CursorStays,
    /// A stop brings back what stood before the script.
    StopTakenBack,
    /// 9 is given before 11.
    BudgetBeforeStanding,
    /// 10 is given before 9.
    PlacesBeforeBudget,
    /// More than 512 places are 11 in place of 10.
    PlacesAre11,
    /// A part record at a section's end is left out.
    PartRecordDropped,
    /// A 65th variable is accepted.
    LentVariablesUnchecked,
    /// A root with a right sibling is accepted.
    RootSiblingAccepted,
    /// A node's parent is not looked at.
    LentParentUnchecked,
    /// A count of children is not looked at.
    LentCountUnchecked,
    /// A link to the left sibling is not looked at.
    LentLeftUnchecked,
    /// A link to the last child is not looked at.
    LentLastUnchecked,
    /// A free place with a link to the left that is no place is 11.
    FreeLeftChecked,
    /// A count above the number of children is accepted.
    LentCountTooHigh,
    /// A free place with a count and no child is 11.
    FreeCountsChecked,
    /// The tree rules are not looked at.
    LentRulesUnchecked,
    /// A link that is no place is no link.
    LinkOutsideIsNone,
    /// A free place with a link that is no place is 11.
    FreePlacesChecked,
    /// Spare bytes of a bare section hold anything.
    SectionSpareUnchecked,
    // Writing what stands back.
    /// The nodes are written level after level.
    WrittenByLevels,
    /// A value that only house may know is written as 0.
    WrittenHouseValuesDropped,
    /// Bytes of the area beyond the job become 0.
    WrittenRestCleared,
    /// An area that is too short gets the beginning of the job.
    ShortAreaFilled,
    /// An area as long as the job is too short.
    AreaMustBeLonger,
    /// 14 is given before 11 where the area is too short for any job.
    AreaBeforeStanding,
    /// 14 is given before 10.
    AreaBeforePlaces,
    /// A tree in a table of more than 512 places is written.
    WrittenFromMorePlaces,
    // Runs that take turns.
    /// A ninth run finds a place.
    NineRuns,
    /// A job that is turned back gets its own number while eight runs are unended.
    JobReadBefore15,
    /// A newcomer that is turned back takes a place for ever.
    TurnedBackTakesAPlace,
    /// The place of an ended run is not used again.
    PlaceNotUsedAgain,
    /// A newcomer has the next turn.
    NewcomerToTheFront,
    /// A run has turn after turn until it ends.
    UnendedToTheFront,
    /// A turn is of 4,999 steps.
    TurnOf4999,
    /// A run at its script's end after its turn's last step ends in its next turn.
    EndsATurnLate,
    /// A run at its budget after its turn's last step ends in its next turn.
    SpentATurnLate,
    /// A record that would stop right after a turn's last step stops in that turn.
    StopsATurnEarly,
    /// A turn starts with the cursor at the root.
    TurnStartsAtTheRoot,
    /// A turn starts with guards of level 0.
    TurnForgetsGuards,
    /// A turn starts with no lines.
    TurnForgetsLines,
    /// Each turn has the whole budget.
    TurnHasTheBudget,
    /// All steps so far are told in place of the turn's.
    TookIsSteps,
    // Budgets.
    /// A run whose budget is used up has finished.
    SpentIsFinished,
    /// A run whose budget is used up puts out its steps as a last line.
    SpentPrintsSteps,
    /// The last step that the budget allows has no room for a line.
    LastStepHasNoLine,
}

/// The commands that have a rule.
pub const RULED_COMMANDS: [u8; 14] = [1, 6, 7, 8, 9, 10, 11, 12, 13, 14, 15, 16, 18, 19];

impl Mistake {
    /// Every mistake that a job shows, without `None` and `NoRule`.
    pub const ALL: [Mistake; 65] = [
        Mistake::MoveRaisesCursorLevel,
        Mistake::ChildrenLevelFromChildren,
        Mistake::RootResetsCursorLevel,
        Mistake::RemovalTestsWorkingNode,
        Mistake::ElseForgetsGuard,
        Mistake::MeanRoundsTowardZero,
        Mistake::MeanOfWrappedSum,
        Mistake::SumSaturates,
        Mistake::SumWraps,
        Mistake::DifferenceWraps,
        Mistake::LessIsUnsigned,
        Mistake::MeanOfSumInRange,
        Mistake::RightLevelForgotten,
        Mistake::InsertionIgnoresNeighbour,
        Mistake::ValueForgetsCursorLevel,
        Mistake::ChildrenForgetCursorLevel,
        Mistake::CursorLevelAlwaysCounts,
        Mistake::ContextForgotten,
        Mistake::SettingForgetsCursorLevel,
        Mistake::NewContentForgetsCursorLevel,
        Mistake::GuardJoinsCursorLevel,
        Mistake::RuleBeforeMissing,
        Mistake::RangeBeforeRule,
        Mistake::RangeAfterRoom,
        Mistake::GuardsWrap,
        Mistake::TableFullAt512,
        Mistake::StopCountsStep,
        Mistake::BackLevelNotJoined,
        Mistake::BackGuardNotJoined,
        Mistake::BackLevelAlone,
        Mistake::BackNodeAlone,
        Mistake::BackResetsLevel,
        Mistake::BackToThePlace,
        Mistake::BackGoesOn,
        Mistake::BackHasNoElse,
        Mistake::LastJoinsExistence,
        Mistake::LastJoinsNothing,
        Mistake::LastIsFirst,
        Mistake::LeftOfFirstIsUp,
        Mistake::RemovalNotCounted,
        Mistake::ReusedCountKept,
        Mistake::SetsCompared,
        Mistake::SetsMeet,
        Mistake::CoverReplaces,
        Mistake::CoverIgnoresSet,
        Mistake::CoverAlwaysJoins1,
        Mistake::LineMustBePublic,
        Mistake::LineForAll,
        Mistake::LineKeepsItsLevel,
        Mistake::NeighbourApartUntested,
        Mistake::MarkHidesSet,
        Mistake::NewSetsForgotten,
        Mistake::NewSetsExchanged,
        Mistake::LevelsAbove1TurnedBack,
        Mistake::TreeSetsCompared,
        Mistake::SetsStaySpare,
        Mistake::LeftIsPreviousRecord,
        Mistake::RightSideAlwaysChecked,
        Mistake::SeventeenBlocksAccepted,
        Mistake::OrderFromTheNode,
        Mistake::OrderTwoUp,
        Mistake::OrderAfterTree,
        Mistake::SpareAfterBlocks,
        Mistake::SpareScriptFirst,
        Mistake::UnreadNumberForgotten,
    ];

    /// The mistakes that the cleaner shows.
    pub const CLEANING: [Mistake; 4] = [
        Mistake::UnreadNumberForgotten,
        Mistake::CleanerHasNewRules,
        Mistake::ReportBackwards,
        Mistake::CleanerKeepsSets,
    ];

    /// The mistakes that the summary shows.
    pub const SUMMING: [Mistake; 2] = [Mistake::SummaryOfContent, Mistake::SummaryIsTheSet];

    /// The mistakes that the rearranger shows.
    pub const ARRANGING: [Mistake; 5] = [
        Mistake::ArrangerHasNewRules,
        Mistake::ArrangerHasFirstRules,
        Mistake::ArrangedParentsKept,
        Mistake::ArrangedRightToLeft,
        Mistake::ArrangedByLevels,
    ];

    /// The mistakes that only a follow-on script shows.
    pub const FOLLOWING: [Mistake; 19] = [
        Mistake::CursorStays,
        Mistake::StopTakenBack,
        Mistake::BudgetBeforeStanding,
        Mistake::PlacesBeforeBudget,
        Mistake::PlacesAre11,
        Mistake::PartRecordDropped,
        Mistake::LentVariablesUnchecked,
        Mistake::RootSiblingAccepted,
        Mistake::LentParentUnchecked,
        Mistake::LentCountUnchecked,
        Mistake::LentLeftUnchecked,
        Mistake::LentLastUnchecked,
        Mistake::FreeLeftChecked,
        Mistake::LentCountTooHigh,
        Mistake::FreeCountsChecked,
        Mistake::LentRulesUnchecked,
        Mistake::LinkOutsideIsNone,
        Mistake::FreePlacesChecked,
        Mistake::SectionSpareUnchecked,
    ];

    /// The mistakes that only a tree that is written back shows.
    pub const WRITING: [Mistake; 8] = [
        Mistake::WrittenByLevels,
        Mistake::WrittenHouseValuesDropped,
        Mistake::WrittenRestCleared,
        Mistake::ShortAreaFilled,
        Mistake::AreaMustBeLonger,
        Mistake::AreaBeforeStanding,
        Mistake::AreaBeforePlaces,
        Mistake::WrittenFromMorePlaces,
    ];

    /// The mistakes that only runs that take turns show.
    pub const TURNING: [Mistake; 15] = [
        Mistake::NineRuns,
        Mistake::JobReadBefore15,
        Mistake::TurnedBackTakesAPlace,
        Mistake::PlaceNotUsedAgain,
        Mistake::NewcomerToTheFront,
        Mistake::UnendedToTheFront,
        Mistake::TurnOf4999,
        Mistake::EndsATurnLate,
        Mistake::SpentATurnLate,
        Mistake::StopsATurnEarly,
        Mistake::TurnStartsAtTheRoot,
        Mistake::TurnForgetsGuards,
        Mistake::TurnForgetsLines,
        Mistake::TurnHasTheBudget,
        Mistake::TookIsSteps,
    ];

    /// The mistakes by which a larger budget changes what was said.
    pub const SPENDING: [Mistake; 3] = [
        Mistake::SpentIsFinished,
        Mistake::SpentPrintsSteps,
        Mistake::LastStepHasNoLine,
    ];

    /// The mistakes that leak from one script of a history to the next.
    pub const LEAKING_ON: [Mistake; 1] = [Mistake::CursorStays];

    /// The mistakes by which the lines that a reader sees come to depend on parts
    /// of an accepted job that are hidden from them.
    pub const LEAKING: [Mistake; 19] = [
        Mistake::MoveRaisesCursorLevel,
        Mistake::ChildrenLevelFromChildren,
        Mistake::RootResetsCursorLevel,
        Mistake::ElseForgetsGuard,
        Mistake::RightLevelForgotten,
        Mistake::InsertionIgnoresNeighbour,
        Mistake::ValueForgetsCursorLevel,
        Mistake::ChildrenForgetCursorLevel,
        Mistake::ContextForgotten,
        Mistake::SettingForgetsCursorLevel,
        Mistake::BackLevelAlone,
        Mistake::BackResetsLevel,
        Mistake::LastJoinsExistence,
        Mistake::LastJoinsNothing,
        Mistake::SetsCompared,
        Mistake::SetsMeet,
        Mistake::CoverReplaces,
        Mistake::LineForAll,
        Mistake::NeighbourApartUntested,
    ];
}
