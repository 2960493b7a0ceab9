//! The ways a job can end, with the paper's numbers.

/// Finished, a job or script turned back (1 to 15), or a run that stopped (21 to 25, 27).
#[derive(Clone, Copy, Debug, PartialEq, Eq, PartialOrd, Ord)]
pub enum Ending {
    Finished = 0,
    /// "under 8 or over 23,048 bytes"
    Size = 1,
    /// "not 0 = variables ≤ nodes ≤ script ≤ trailer = length − 8, or a part record"
    Layout = 2,
    /// "a count out of range"
    Count = 3,
    /// "variable level above 1": only by programs that keep rules from before R-12
    VariableLevel = 4,
    /// "parent rule broken"
    Parent = 5,
    /// "a tree rule broken"
    Tree = 6,
    /// "command above 16, or a field read is out of range"
    Field = 7,
    /// else, end or opening that does not fit, or an unclosed block
    Block = 8,
    /// "budget not 1 to 1,000,000"
    Budget = 9,
    /// "table not of 1 to 512 places or below the node count, or variable
    /// buffer below the variable count"
    Buffer = 10,
    /// "a bare section that is not whole records or has more than 1,024, or a
    /// lent tree and variables that no accepted job could hold" (R-1)
    Standing = 11,
    /// "a spare byte not zero"
    Spare = 12,
    /// "a node after record 0 whose parent is neither the record before it nor an
    /// ancestor of that record" (R-10)
    Order = 13,
    /// "the output area is shorter than the job"
    Area = 14,
    /// "a newcomer while eight runs are unended"
    NoPlace = 15,
    /// "a rule above"
    Rule = 21,
    /// "the node moved to or removed does not exist, or command 12 at the root"
    Missing = 22,
    /// "every table place holds a live node"
    TableFull = 23,
    /// "line buffer full"
    LinesFull = 24,
    /// "steps equal budget"
    BudgetUsed = 25,
    /// "a result outside signed 32 bits"
    OutOfRange = 27,
}

impl Ending {
    pub const ALL: [Ending; 22] = [
        Ending::Finished,
        Ending::Size,
        Ending::Layout,
        Ending::Count,
        Ending::VariableLevel,
        Ending::Parent,
        Ending::Tree,
        Ending::Field,
        Ending::Block,
        Ending::Budget,
        Ending::Buffer,
        Ending::Standing,
        Ending::Spare,
        Ending::Order,
        Ending::Area,
        Ending::NoPlace,
        Ending::Rule,
        Ending::Missing,
        Ending::TableFull,
        Ending::LinesFull,
        Ending::BudgetUsed,
        Ending::OutOfRange,
    ];

    /// "ending (0 for finished, else the number)"
    pub fn number(self) -> u32 {
        self as u32
    }

    /// Endings 1 to 15: no step was made and no lent buffer changed.
    pub fn turned_back(self) -> bool {
        (1..=15).contains(&self.number())
    }
}
