//! Wrong rules that can be switched on by name, to see whether the generator's lines tell
//! them from the right ones. `Wrong::None` is the board of document 01.

#[derive(Clone, Copy, PartialEq, Eq, Debug)]
pub enum Wrong {
    None,
    NextFresh,
    NextAny,
    HoldOverrun,
    OverheldLate,
    TrDown,
    LockFromNow,
    ArriveFromTr,
    TieHigher,
    CeilingEqual,
    BlockUnused,
    BlockBelowOnly,
    BlockEqual,
    BlockSum,
    AdmitBelow,
    StartedKept,
    LockNotStarted,
    NotClosed,
    GrantInRenewal,
    OwnHoldOnly,
    ArriveAtTr,
    DoneEmpties,
    StoppedNoCeiling,
    ClosedNoHold,
    RunPastReplenish,
    RunPastSpent,
    HeldKept,
    HeldByClock,
    OverheldFirst,
    SpentNotDone,
    ClosedBeforeUsed,
    RefusedOpens,
    CutNumbers,
    UnlockWaits,
    SpentWaits,
    RunPastHold,
    HoldStands,
    OverheldUnnamed,
    AdmitNewOnly,
    LockAbove,
    Product32,
    Sum32,
    HoldsFirst,
    StoppedLate,
    SheetTurned,
    SheetBehind,
    SheetFormLate,
    SheetBody,
}

/// Each wrong rule with its name and what it does.
pub const ALL: [(Wrong, &str, &str); 47] = [
    (
        Wrong::NextFresh,
        "next-fresh",
        "the next fresh server below the ceiling starts when the first is held back",
    ),
    (Wrong::NextAny, "next-any", "the second in the order is named when the first is held back"),
    (Wrong::HoldOverrun, "hold-overrun", "a hold may be overrun by one tick"),
    (Wrong::OverheldLate, "overheld-late", "overheld only when the held count is past the hold"),
    (Wrong::TrDown, "tr-down", "tr rounded down"),
    (Wrong::LockFromNow, "lock-from-now", "a lock renewed from now, not from tr"),
    (Wrong::ArriveFromTr, "arrive-from-tr", "an arrival replenished from tr, not from now"),
    (Wrong::TieHigher, "tie-higher", "equal deadlines: the higher slot first"),
    (Wrong::CeilingEqual, "ceiling-equal", "P equal to the ceiling may start"),
    (Wrong::BlockUnused, "block-unused", "B(k) counts resources no short server uses"),
    (Wrong::BlockBelowOnly, "block-below-only", "B(k) looks at users with P_x < P_k only"),
    (Wrong::BlockEqual, "block-equal", "B(k) counts holders with P_j >= P_k other than k"),
    (Wrong::BlockSum, "block-sum", "B(k) is a sum over resources"),
    (Wrong::AdmitBelow, "admit-below", "the admission sum must be below L"),
    (Wrong::StartedKept, "started-kept", "the started mark outlives a replenishment"),
    (Wrong::LockNotStarted, "lock-not-started", "a granted lock leaves the started mark unset"),
    (Wrong::NotClosed, "not-closed", "an overheld resource is not closed"),
    (Wrong::GrantInRenewal, "grant-in-renewal", "the lock is granted in the call that renewed"),
    (Wrong::OwnHoldOnly, "own-hold-only", "the budget is held against H(r), not the largest hold"),
    (Wrong::ArriveAtTr, "arrive-at-tr", "an arrival at tr itself is suspended"),
    (Wrong::DoneEmpties, "done-empties", "done takes the budget away"),
    (Wrong::StoppedNoCeiling, "stopped-no-ceiling", "a stopped server no longer counts for ceilings"),
    (Wrong::ClosedNoHold, "closed-no-hold", "holds of closed resources no longer count"),
    (Wrong::RunPastReplenish, "run-past-replenish", "a run does not end at a replenishment"),
    (Wrong::RunPastSpent, "run-past-spent", "a run does not end when a server is spent"),
    (Wrong::HeldKept, "held-kept", "the held count goes on from the lock before"),
    (Wrong::HeldByClock, "held-by-clock", "the held count counts ticks of others too"),
    (Wrong::OverheldFirst, "overheld-first", "overheld comes before 17 and 18"),
    (Wrong::SpentNotDone, "spent-not-done", "done by a spent server gets 9"),
    (Wrong::ClosedBeforeUsed, "closed-before-used", "13 is checked before 10"),
    (Wrong::RefusedOpens, "refused-opens", "a refused frame clears the board"),
    (Wrong::CutNumbers, "cut-numbers", "numbers of a line cut to 32 bits"),
    (
        Wrong::UnlockWaits,
        "unlock-waits",
        "spent by an unlock at its deadline is replenished only after the next tick",
    ),
    (
        Wrong::SpentWaits,
        "spent-waits",
        "spent by a tick at its deadline is replenished only after the next tick",
    ),
    (Wrong::RunPastHold, "run-past-hold", "a run does not end at the tick at which a hold is reached"),
    (Wrong::HoldStands, "hold-stands", "a run ends at every tick while a holder stands at its hold"),
    (Wrong::OverheldUnnamed, "overheld-unnamed", "a holder at its hold is stopped though it is not named"),
    (Wrong::AdmitNewOnly, "admit-new-only", "the admission test is made for the new server alone"),
    (Wrong::LockAbove, "lock-above", "a lock asks for a budget above the largest hold"),
    (Wrong::Product32, "product-32", "q * P in 32 bits"),
    (Wrong::Sum32, "sum-32", "the admission sum in 32 bits"),
    (Wrong::HoldsFirst, "holds-first", "6 is checked before 5"),
    (Wrong::StoppedLate, "stopped-late", "a stopped server gets 9 or 15, not 16"),
    (Wrong::SheetTurned, "sheet-turned", "numbers of a sheet little-endian"),
    (Wrong::SheetBehind, "sheet-behind", "bytes behind the last field accepted"),
    (Wrong::SheetFormLate, "sheet-form-late", "frame and admissions before the form of later fields"),
    (Wrong::SheetBody, "sheet-body", "a refused admission answers the body's offset"),
];

impl Wrong {
    pub fn by_name(name: &str) -> Option<Wrong> {
        ALL.iter().find(|rule| rule.1 == name).map(|rule| rule.0)
    }

    /// The wrong rule asked for by `--wrong NAME`; none asked for is `Wrong::None`.
    pub fn from_arguments() -> Result<Wrong, String> {
        let arguments: Vec<String> = std::env::args().skip(1).collect();
        match arguments.as_slice() {
            [] => Ok(Wrong::None),
            [flag, name] if flag == "--wrong" => {
                Wrong::by_name(name).ok_or_else(|| format!("no wrong rule is called {name}"))
            }
            _ => Err("usage: [--wrong NAME]".to_string()),
        }
    }
}
