//! The calling programs, and the limits with which the one engine serves them.

use crate::fault::{planted, Fault};
use crate::form::Form;

#[derive(Clone, Copy, Debug, PartialEq, Eq, PartialOrd, Ord)]
pub enum Caller {
    Exchange,
    /// A small panel in the corridor.
    Panel,
}

/// Who calls, and the form of all the sheets.
#[derive(Clone, Copy, Debug, PartialEq, Eq, PartialOrd, Ord)]
pub struct Call {
    pub caller: Caller,
    pub form: Form,
}

impl Call {
    pub const ALL: [Call; 4] = [
        Call::new(Caller::Exchange, Form::Narrow),
        Call::new(Caller::Panel, Form::Narrow),
        Call::new(Caller::Exchange, Form::Wide),
        Call::new(Caller::Panel, Form::Wide),
    ];

    pub const fn new(caller: Caller, form: Form) -> Self {
        Call { caller, form }
    }

    /// The longest buffer that the caller may lend: the same in both forms.
    pub fn may_lend(self, room: usize) -> bool {
        let scaled = self.form.is_wide() && planted(Fault::WidePanelRoomScaled);
        self.caller.may_lend(if scaled { room / 3 * 2 } else { room })
    }
}

/// The longest answer buffer of a panel.
pub const PANEL_ROOM: usize = 1_024;
/// The most entries of a list or search for a panel.
const PANEL_ENTRIES: u32 = 5;

impl Caller {
    pub const ALL: [Caller; 2] = [Caller::Exchange, Caller::Panel];

    /// Whether the caller may lend a buffer of this length.
    pub fn may_lend(self, room: usize) -> bool {
        let limited = self == Caller::Panel || planted(Fault::PanelRoomForExchange);
        let most = match () {
            _ if planted(Fault::PanelRoom1024Refused) => PANEL_ROOM - 1,
            _ if planted(Fault::PanelRoom1025Accepted) => PANEL_ROOM + 1,
            _ => PANEL_ROOM,
        };
        !limited || room <= most
    }

    /// The most entries that the caller gets, if there is a limit.
    pub fn most_entries(self) -> Option<u32> {
        let limited = self == Caller::Panel || planted(Fault::PanelEntriesForExchange);
        let most = match () {
            _ if planted(Fault::PanelGetsFour) => PANEL_ENTRIES - 1,
            _ if planted(Fault::PanelGetsSix) => PANEL_ENTRIES + 1,
            _ => PANEL_ENTRIES,
        };
        limited.then_some(most)
    }
}

/// The size limit of a list or search: the smaller of the request's own and the caller's.
#[derive(Clone, Copy, Debug)]
pub struct SizeLimit {
    pub entries: Option<u32>,
    /// Whether C is set where the limit cuts: always, but for planted faults.
    pub marked: bool,
    /// Whether withheld entries count: only by a planted fault.
    pub of_withheld: bool,
}

impl SizeLimit {
    /// From column C of K 11, 0 for none, and the caller's limit.
    pub fn new(own: u32, callers: Option<u32>) -> Self {
        let zero = planted(Fault::PanelLimitZeroIsZero) && callers.is_some();
        let own = (own != 0 || zero).then_some(own);
        let entries = match (own, callers) {
            (None, Some(_)) if planted(Fault::PanelLimitZeroIsNone) => None,
            (Some(own), Some(callers)) if planted(Fault::LargerLimitCounts) => {
                Some(own.max(callers))
            }
            (Some(own), Some(callers)) => Some(own.min(callers)),
            (own, callers) => own.or(callers),
        };
        let marked = match () {
            _ if callers.is_none() => true,
            _ if planted(Fault::CutByOwnLimitAlone) => entries == own,
            _ if planted(Fault::CutByPanelLimitAlone) => entries == callers,
            _ => true,
        };
        let of_withheld = planted(Fault::WithheldEntriesCounted)
            || (planted(Fault::PanelCountsWithheld) && callers.is_some());
        SizeLimit { entries, marked, of_withheld }
    }
}
