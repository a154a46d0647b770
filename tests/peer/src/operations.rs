//! Read, compare, list and search.

use crate::alias::resolve;
use crate::answer::{Answer, Outcome};
use crate::caller::SizeLimit;
use crate::decide::Judge;
use crate::directory::{Directory, Number, ROOT};
use crate::edition::Edition;
use crate::fault::{planted, Fault};
use crate::filter::{Filter, Truth};
use crate::form::Form;
use crate::name::Asked;
use crate::order::{Found, Order};
use crate::permissions::{Mask, Permissions, BROWSE, COMPARE, DISCLOSE_ON_ERROR, READ, RETURN_DN};
use crate::request::{Operation, Purported, Request, Search, Selection, Subset};

/// The answer to a request, with at most so many entries, if there is a limit.
pub fn answer<'a>(
    form: Form,
    directory: &Directory<'a>,
    permissions: &Permissions<'a>,
    request: &Request<'a>,
    most: Option<u32>,
) -> Vec<u8> {
    let mut judge = Judge::new(directory, permissions, &request.requester);
    let followed = match request.operation {
        Operation::List { .. } => !planted(Fault::ListNameUnreplaced),
        Operation::Search(_) => !planted(Fault::SearchNameUnreplaced),
        _ => !planted(Fault::ReadNameUnreplaced),
    };
    let resolved = resolve(directory, &request.name, |alias| {
        let needed = match () {
            _ if planted(Fault::ReplacementNeedsRead) => READ,
            _ if planted(Fault::ReplacementNeedsBrowse) => BROWSE,
            _ if planted(Fault::ReplacementNeedsDisclosure) => DISCLOSE_ON_ERROR,
            _ => 0,
        };
        followed && judge.enter(alias) & needed == needed
    });
    let mut service = Service {
        form,
        directory,
        judge,
        edition: request.edition,
        operation: request.operation.number(),
        most,
        asked: resolved.name,
        path: resolved.path,
    };
    if planted(Fault::MatchedNameUnreplaced) && service.path.len() < service.asked.len() {
        service.asked = request.name.clone();
        service.path = directory.walk(request.name.iter().map(Option::as_ref));
        service.path.truncate(service.asked.len() - 1);
    }
    let answer = if resolved.problem {
        service.alias_problem()
    } else {
        service.perform(&request.operation)
    };
    answer.into_bytes()
}

struct Service<'d, 'a> {
    /// Of the answer.
    form: Form,
    directory: &'d Directory<'a>,
    judge: Judge<'d, 'a>,
    edition: Edition,
    operation: u32,
    /// The caller's limit of entries.
    most: Option<u32>,
    /// Once aliases are replaced.
    asked: Asked<'a>,
    /// The entries that the name asked for leads to, as far as they exist.
    path: Vec<Number>,
}

impl Service<'_, '_> {
    fn perform(&mut self, operation: &Operation) -> Answer {
        let base = match self.path.last() {
            _ if self.path.len() < self.asked.len() => return self.no_such_object(),
            None => ROOT,
            Some(&number) => number,
        };
        match operation {
            Operation::Read(selection) => self.read(base, selection),
            Operation::Compare(purported) => self.compare(base, purported),
            Operation::List { limit } => self.list(base, SizeLimit::new(*limit, self.most)),
            Operation::Search(search) => self.search(base, search),
        }
    }

    fn answer(&self, outcome: Outcome) -> Answer {
        Answer::new(self.form, self.operation, outcome)
    }

    /// Aliases lead from one to the next too often.
    fn alias_problem(&mut self) -> Answer {
        if planted(Fault::AliasProblemIsMatched) {
            self.path = self.directory.walk(self.asked.iter().map(Option::as_ref));
            let mut answer = self.no_such_object();
            answer.become_alias_problem();
            return answer;
        }
        self.answer(Outcome::AliasProblem)
    }

    /// With the longest proper beginning of the name that names an entry open to disclosure.
    fn no_such_object(&mut self) -> Answer {
        let mut answer = self.answer(Outcome::NoSuchObject);
        let proper = self.asked.len().saturating_sub(1);
        for index in (0..self.path.len().min(proper)).rev() {
            let number = self.path[index];
            let disclosed = self.judge.enter(number) & DISCLOSE_ON_ERROR != 0;
            if disclosed || planted(Fault::MatchedNameAsFarAsItExists) {
                self.matched_name(&mut answer, number);
                break;
            }
            if planted(Fault::MatchedNameGivesUp) {
                break;
            }
        }
        answer
    }

    fn matched_name(&self, answer: &mut Answer, number: Number) {
        if planted(Fault::NamePrintedAsAsked) {
            let depth = self.directory.entry(number).lineage().len();
            for part in self.asked[..depth].iter().flatten() {
                let number = self.directory.schema.number(part.slot);
                answer.line(9, number, 0, part.value.bytes);
            }
        } else {
            answer.name(self.directory, number);
        }
    }

    /// Why an entry is not read or compared, given the permissions on it.
    fn withheld(&mut self, rights: Mask) -> Answer {
        if rights & DISCLOSE_ON_ERROR != 0 || planted(Fault::ReadRefusedTellsExistence) {
            self.answer(Outcome::InsufficientAccessRights)
        } else {
            self.no_such_object()
        }
    }

    fn read(&mut self, base: Number, selection: &Selection) -> Answer {
        let rights = self.judge.enter(base);
        if rights & READ == 0 {
            return self.withheld(rights);
        }
        let mut answer = self.answer(Outcome::Result);
        let named = rights & RETURN_DN != 0 || planted(Fault::ReadIgnoresReturnDn);
        self.head(&mut answer, base, named);
        let anything = self.information(&mut answer, base, selection);
        let succeeds = match () {
            _ if planted(Fault::EmptyListFails) => false,
            _ if planted(Fault::AllTypesNeverFail) => selection.empty_list || selection.all,
            _ => selection.empty_list,
        };
        if anything || succeeds {
            return answer;
        }
        let directory = self.directory;
        let mut held = directory.held(directory.entry(base)).iter();
        let disclosed = held.any(|held| {
            let rights = self.judge.of_type(held.slot);
            let unread = !planted(Fault::ReadRefusalNeedsNoRead) || rights & READ == 0;
            selection.contains(held.slot)
                && unread
                && (rights & DISCLOSE_ON_ERROR != 0 || planted(Fault::ReadTellsHeldTypes))
        });
        self.answer(if disclosed {
            Outcome::InsufficientAccessRights
        } else {
            Outcome::NoSuchAttributeOrValue
        })
    }

    fn compare(&mut self, base: Number, purported: &Purported) -> Answer {
        let rights = self.judge.enter(base);
        let unread = planted(Fault::CompareNeedsNoRead) && base != ROOT;
        if rights & READ == 0 && !unread {
            return self.withheld(rights);
        }
        let entry = self.directory.entry(base);
        let Some(slot) = purported.slot else {
            return self.answer(Outcome::NoSuchAttributeOrValue);
        };
        if planted(Fault::CompareSyntaxFirst) && purported.part.is_none() {
            return self.answer(Outcome::InvalidAttributeSyntax);
        }
        let rights = self.judge.of_type(slot);
        let held = entry.holds(slot);
        if planted(Fault::CompareSyntaxWhenHeld) && held && purported.part.is_none() {
            return self.answer(Outcome::InvalidAttributeSyntax);
        }
        if rights & COMPARE == 0 {
            let disclosed = rights & DISCLOSE_ON_ERROR != 0 || planted(Fault::CompareTellsHeldType);
            return self.answer(if held && disclosed {
                Outcome::InsufficientAccessRights
            } else {
                Outcome::NoSuchAttributeOrValue
            });
        }
        if !held {
            return self.answer(Outcome::NoSuchAttributeOrValue);
        }
        let Some(part) = &purported.part else {
            return self.answer(Outcome::InvalidAttributeSyntax);
        };
        let unjudged = planted(Fault::CompareValuesUnjudged);
        let equal = self.directory.places_of(entry, slot).any(|place| {
            self.directory.values[place].equals_under(Fault::CompareCountsBlanks, &part.value)
                && (self.judge.of_value(slot, place) & COMPARE != 0 || unjudged)
        });
        let mut answer = self.answer(Outcome::Result);
        answer.line(31, equal.into(), 0, &[]);
        answer
    }

    fn list(&mut self, base: Number, limit: SizeLimit) -> Answer {
        let directory = self.directory;
        let mut count = Counter::new(self.answer(Outcome::Result), limit);
        for child in directory.children(base) {
            let rights = self.judge.enter(child);
            let wanted =
                if planted(Fault::ListIgnoresReturnDn) { BROWSE } else { BROWSE | RETURN_DN };
            let left_out = planted(Fault::AliasesUnlisted) && directory.entry(child).is_alias();
            if rights & wanted != wanted || left_out {
                count.withhold();
                continue;
            }
            if !count.take() {
                break;
            }
            let entry = directory.entry(child);
            let kind = directory.schema.number(entry.naming.slot);
            let mark = u32::from(self.is_marked(child));
            count.answer.marked_line(32, kind, 0, mark, entry.naming.value.bytes);
        }
        self.close(base, count)
    }

    /// Whether list marks an entry as an alias.
    fn is_marked(&self, number: Number) -> bool {
        let exists = |target: &[Option<_>]| {
            self.directory.walk(target.iter().map(Option::as_ref)).len() == target.len()
        };
        match () {
            _ if planted(Fault::AliasesListedUnmarked) => false,
            _ if planted(Fault::AliasMarkedIfTargetExists) => {
                self.directory.entry(number).is_alias() && exists(self.directory.target(number))
            }
            _ => self.directory.entry(number).is_alias(),
        }
    }

    fn search(&mut self, base: Number, search: &Search) -> Answer {
        let directory = self.directory;
        let subset = search.subset;
        let limit = SizeLimit::new(search.limit, self.most);
        let mut count = Counter::new(self.answer(Outcome::Result), limit);
        let mut found: Vec<Found> = Vec::new();
        // Entries come after their parents, so nothing before the base is in the subset.
        for number in base.max(1)..=directory.len() {
            let within = match subset {
                Subset::Base => number == base,
                Subset::OneLevel => {
                    directory.entry(number).parent == base
                        || (planted(Fault::OneLevelIncludesBase) && number == base)
                }
                Subset::Subtree => {
                    directory.is_at_or_below(number, base)
                        && !(planted(Fault::SubtreeExcludesBase) && number == base)
                }
            };
            if !within {
                if subset == Subset::Base {
                    break;
                }
                continue;
            }
            if !self.matches(number, base, &search.filter) {
                count.withhold();
                continue;
            }
            if let Some(order) = search.order {
                let key = order.key(directory, number, &mut self.judge, &search.selection);
                found.push(Found { number, key });
                continue;
            }
            if !count.take() {
                break;
            }
            self.show(&mut count.answer, number, &search.selection);
        }
        if let Some(order) = search.order {
            self.show_in_order(&mut count, found, order, &search.selection);
        }
        self.close(base, count)
    }

    /// The first ones after ordering, as far as the limit goes.
    fn show_in_order(
        &mut self,
        count: &mut Counter,
        mut found: Vec<Found>,
        order: Order,
        selection: &Selection,
    ) {
        let early = match () {
            _ if planted(Fault::LimitBeforeOrder) => count.limit.entries,
            _ if planted(Fault::PanelLimitBeforeOrder) => self.most,
            _ => None,
        };
        if let Some(most) = early {
            let most = most as usize;
            count.cut = found.len() > most;
            found.truncate(most);
        }
        order.sort(&mut found);
        for one in found {
            let cut = count.cut;
            if !count.take() {
                break;
            }
            count.cut |= cut;
            self.show(&mut count.answer, one.number, selection);
        }
        count.cut = match () {
            _ if planted(Fault::OrderedNeverCut) => false,
            _ if planted(Fault::OrderedCutWhenFull) => count.is_full(),
            _ => count.cut,
        };
    }

    /// An entry that was found.
    fn show(&mut self, answer: &mut Answer, number: Number, selection: &Selection) {
        let shown = self.followed(number);
        self.judge.enter(shown);
        self.head(answer, shown, true);
        self.information(answer, shown, selection);
    }

    fn matches(&mut self, number: Number, base: Number, filter: &Filter) -> bool {
        let rights = self.judge.enter(number);
        let by_read = match () {
            _ if planted(Fault::ReadServesAsBrowse) => true,
            _ if planted(Fault::BaseNeedsBrowse) => false,
            _ => number == base,
        };
        let found = rights & BROWSE != 0 || (by_read && rights & READ != 0);
        let named = rights & RETURN_DN != 0 || planted(Fault::SearchIgnoresReturnDn);
        let entry = self.directory.entry(number);
        found
            && named
            && !(entry.is_alias() && planted(Fault::AliasesNotSearched))
            && filter.evaluate(self.edition, self.directory, entry, &mut self.judge) == Truth::True
    }

    /// The end of list and search: with nothing to return, noSuchObject unless disclosed.
    fn close(&mut self, base: Number, mut count: Counter) -> Answer {
        if count.cut && count.limit.marked {
            count.answer.mark_cut();
        }
        let unseen = count.taken == 0 && self.judge.enter(base) & DISCLOSE_ON_ERROR == 0;
        let disclosed = match () {
            _ if planted(Fault::RootDiscloses) => base == ROOT,
            _ if planted(Fault::NothingSucceeds) => true,
            _ if planted(Fault::ChildrenDisclosed) => self.directory.children(base).count() > 0,
            _ => false,
        };
        if unseen && !disclosed {
            return self.no_such_object();
        }
        count.answer
    }

    /// The entry itself; where an alias leads only by a planted fault.
    fn followed(&self, number: Number) -> Number {
        if planted(Fault::SearchFollowsAliases) && self.directory.entry(number).is_alias() {
            let target = self.directory.target(number);
            let path = self.directory.walk(target.iter().map(Option::as_ref));
            return path.last().copied().filter(|_| path.len() == target.len()).unwrap_or(number);
        }
        number
    }

    /// K 33 and the stored name.
    fn head(&self, answer: &mut Answer, number: Number, named: bool) {
        let shown = if planted(Fault::EntryNumberShown) { number as u32 } else { 0 };
        if named {
            let parts = self.directory.entry(number).lineage().len();
            let alias = self.directory.entry(number).is_alias();
            let mark = u32::from(alias && planted(Fault::FoundAliasMarked));
            answer.marked_line(33, shown, parts as u32, mark, &[]);
            answer.name(self.directory, number);
        } else {
            answer.line(33, shown, 0, &[]);
        }
    }

    /// The selected types with Read, with their values with Read if wanted; whether there were
    /// any. The judge is at the entry.
    fn information(&mut self, answer: &mut Answer, number: Number, selection: &Selection) -> bool {
        let directory = self.directory;
        let mut anything = false;
        let mut places = Vec::new();
        for held in directory.held(directory.entry(number)) {
            let slot = held.slot;
            if !selection.contains(slot) || self.judge.of_type(slot) & READ == 0 {
                continue;
            }
            places.clear();
            if selection.with_values {
                let judge = &mut self.judge;
                places.extend(
                    held.values.clone().filter(|&place| judge.of_value(slot, place) & READ != 0),
                );
                if places.is_empty() && !planted(Fault::TypeWithoutValuesKept) {
                    continue;
                }
            }
            anything = true;
            let number = directory.schema.number(slot);
            let count = match () {
                _ if planted(Fault::AllValuesCounted) && selection.with_values => held.values.len(),
                _ => places.len(),
            };
            answer.line(34, number, count as u32, &[]);
            for &place in &places {
                answer.line(35, 0, 0, directory.values[place].bytes);
            }
        }
        anything
    }
}

/// Counts what is returned against the size limits.
struct Counter {
    answer: Answer,
    limit: SizeLimit,
    taken: u32,
    cut: bool,
    /// Counted though withheld: none but for a planted fault.
    withheld: u32,
}

impl Counter {
    fn new(answer: Answer, limit: SizeLimit) -> Self {
        Counter { answer, limit, taken: 0, cut: false, withheld: 0 }
    }

    /// Whether one more may be returned; if not, the answer is cut.
    fn take(&mut self) -> bool {
        self.cut = self.limit.entries.is_some_and(|most| self.taken + self.withheld >= most);
        if !self.cut {
            self.taken += 1;
            self.cut = planted(Fault::CutAtExactLimit) && self.is_full();
            return true;
        }
        false
    }

    fn withhold(&mut self) {
        if planted(Fault::WithheldEntriesCut) && self.is_full() {
            self.cut = true;
        }
        self.withheld += u32::from(self.limit.of_withheld);
    }

    fn is_full(&self) -> bool {
        self.limit.entries == Some(self.taken)
    }
}
