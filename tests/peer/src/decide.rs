//! The decision function, for one requester.

use crate::alias::resolve;
use crate::directory::{Directory, Number, ROOT};
use crate::fault::{planted, Fault};
use crate::name::{begins_with, Asked, Part};
use crate::permissions::{Covers, Item, Mask, Permissions, What, Who, ALL};
use crate::schema::{Slot, MAX_TYPES};
use std::borrow::Cow;
use std::cmp::Reverse;

pub struct Requester<'a> {
    pub level: u32,
    pub name: Asked<'a>,
}

/// An item whose "who" and level fit the requester.
#[derive(Clone, Copy)]
struct Rule<'a> {
    /// Precedence, then specificity of "who": the highest rank among those that apply decides.
    rank: u32,
    grants: bool,
    mask: Mask,
    covers: Covers,
    what: What<'a>,
}

/// Marks a mask that has been found.
const KNOWN: Mask = 128;

/// Answers what the requester may do, one entry at a time.
pub struct Judge<'d, 'a> {
    directory: &'d Directory<'a>,
    /// Highest rank first.
    rules: Vec<Rule<'d>>,
    /// Those that cover the entry at hand.
    covering: Vec<Rule<'d>>,
    /// Masks of the entry at hand by slot, and of all values by place.
    types: [Mask; MAX_TYPES],
    values: Vec<Mask>,
}

impl<'d, 'a> Judge<'d, 'a> {
    pub fn new(
        directory: &'d Directory<'a>,
        permissions: &'d Permissions<'a>,
        requester: &Requester<'a>,
    ) -> Self {
        let mut rules = fitting(directory, permissions, requester);
        rules.sort_by_key(|rule| Reverse(rule.rank));
        Judge {
            directory,
            rules,
            covering: Vec::new(),
            types: [0; MAX_TYPES],
            values: vec![0; directory.values.len()],
        }
    }

    /// Turns to an entry and gives the permissions on the entry itself; none on the root.
    pub fn enter(&mut self, number: Number) -> Mask {
        let directory = self.directory;
        self.types = [0; MAX_TYPES];
        self.covering.clear();
        if number == ROOT {
            return 0;
        }
        self.covering.extend(self.rules.iter().filter(|rule| match rule.covers {
            Covers::Nothing => false,
            Covers::Entry(base) => base == number,
            Covers::Subtree(base) => directory.is_at_or_below(number, base),
        }));
        decide(self.covering.iter().filter_map(|rule| match rule.what {
            What::Entry => Some((rule, false)),
            _ => None,
        }))
    }

    /// Permissions on a type in the entry at hand, held or not.
    pub fn of_type(&mut self, slot: Slot) -> Mask {
        let mask = &mut self.types[slot as usize];
        if *mask & KNOWN == 0 {
            *mask = KNOWN
                | decide(self.covering.iter().filter_map(|rule| match rule.what {
                    What::AllTypes | What::AllTypesAndValues => Some((rule, false)),
                    What::Type(named) if named == slot => Some((rule, true)),
                    _ => None,
                }));
        }
        *mask & ALL
    }

    /// Permissions on a value of the entry at hand, by its place in the directory's values.
    pub fn of_value(&mut self, slot: Slot, place: usize) -> Mask {
        let mask = &mut self.values[place];
        if *mask & KNOWN == 0 {
            let value = &self.directory.values[place];
            let equal = |named: &crate::value::Value| {
                if planted(Fault::ItemValueByBytes) {
                    named.bytes == value.bytes
                } else {
                    named.equals_under(Fault::ItemValueCountsBlanks, value)
                }
            };
            *mask = KNOWN
                | decide(self.covering.iter().filter_map(|rule| match &rule.what {
                    What::AllTypesAndValues => Some((rule, false)),
                    What::ValuesOf(named) if *named == slot => {
                        Some((rule, planted(Fault::AllValuesIsExplicit)))
                    }
                    What::Value(named, wanted) if *named == slot && equal(wanted) => {
                        Some((rule, true))
                    }
                    _ => None,
                }));
        }
        *mask & ALL
    }
}

/// The items that fit the requester, as rules in the order of the sheet.
fn fitting<'p, 'a>(
    directory: &Directory<'a>,
    permissions: &'p Permissions<'a>,
    requester: &Requester<'a>,
) -> Vec<Rule<'p>> {
    let replaced = planted(Fault::RequesterReplaced)
        .then(|| resolve(directory, &requester.name, |_| true).name);
    let user = replaced.as_ref().unwrap_or(&requester.name);
    let path = directory.walk(user.iter().map(Option::as_ref));
    // The entry that the requester is, if any.
    let own = path.last().copied().filter(|_| path.len() == user.len());
    let rule = |item: &'p Item| {
        let by_level = item.grants || planted(Fault::LevelCountsForDenials);
        let level_fits = !by_level || requester.level >= item.level || planted(Fault::LevelIgnored);
        if !level_fits {
            return None;
        }
        let (specificity, covers) = match &item.who {
            Who::AllUsers => (0, item.covers),
            Who::AtOrBelow(name) => {
                let name = &permissions.parts[name.clone()];
                let wrong = match () {
                    _ if planted(Fault::BelowExcludesTheName) => user.len() == name.len(),
                    _ if planted(Fault::BelowEmptyNameIsNobody) => name.is_empty(),
                    _ if planted(Fault::UnfitPartSpoilsName) => user.contains(&None),
                    _ => false,
                };
                let fits = begins_with(user, &who_name(directory, name)) && !wrong;
                (1, fits.then_some(item.covers)?)
            }
            Who::Named(name) => {
                let name = &permissions.parts[name.clone()];
                let name = &who_name(directory, name)[..];
                let exact = user.len() == name.len()
                    || (planted(Fault::EmptyNameIsEverybody) && name.is_empty());
                let exists = !planted(Fault::NamedUserMustExist) || own.is_some();
                let fits = exact && exists && begins_with(user, name);
                (2, fits.then_some(item.covers)?)
            }
            Who::EntryItself => {
                let own = own?;
                let within = match item.covers {
                    Covers::Nothing => false,
                    Covers::Entry(base) => base == own,
                    Covers::Subtree(base) => directory.is_at_or_below(own, base),
                };
                let specificity = if planted(Fault::EntryItselfRanksLow) { 1 } else { 2 };
                (specificity, within.then_some(Covers::Entry(own))?)
            }
        };
        let specificity = if planted(Fault::SpecificityIgnored) { 0 } else { specificity };
        let precedence = if planted(Fault::AnyDenialWins) { 0 } else { item.precedence };
        Some(Rule {
            rank: u32::from(precedence) * 4 + specificity,
            grants: item.grants,
            mask: item.mask,
            covers,
            what: item.what,
        })
    };
    permissions.items.iter().filter_map(rule).collect()
}

/// The name of a "who"; with its aliases replaced only by a planted fault.
fn who_name<'n, 'a>(directory: &Directory<'a>, name: &'n [Part<'a>]) -> Cow<'n, [Part<'a>]> {
    if planted(Fault::WhoReplaced) {
        let asked = name.iter().copied().map(Some).collect();
        Cow::Owned(resolve(directory, &asked, |_| true).name.into_iter().flatten().collect())
    } else {
        Cow::Borrowed(name)
    }
}

/// What rules of one rank say about each permission.
#[derive(Default)]
struct Group {
    granted: Mask,
    denied: Mask,
    explicitly_granted: Mask,
    explicitly_denied: Mask,
}

impl Group {
    /// The permissions that this rank decides, and of these the granted ones.
    fn verdict(&self) -> (Mask, Mask) {
        let explicit = self.explicitly_granted | self.explicitly_denied;
        let decided = explicit | self.granted | self.denied;
        let granted =
            (explicit & !self.explicitly_denied) | (!explicit & self.granted & !self.denied);
        (decided, granted)
    }
}

/// All permissions at once from the rules that cover a thing, highest rank first, each with
/// whether it names the thing explicitly.
fn decide<'r, 'p: 'r>(rules: impl Iterator<Item = (&'r Rule<'p>, bool)>) -> Mask {
    let mut open = ALL;
    let mut granted = 0;
    let mut group = Group::default();
    let mut rank = u32::MAX;
    for (rule, explicit) in rules {
        if rule.rank != rank {
            let (decided, yes) = group.verdict();
            granted |= open & yes;
            open &= !decided;
            if open == 0 {
                return granted;
            }
            group = Group::default();
            rank = rule.rank;
        }
        let explicit = explicit && !planted(Fault::ExplicitIgnored);
        *match (explicit, rule.grants) {
            (true, true) => &mut group.explicitly_granted,
            (true, false) => &mut group.explicitly_denied,
            (false, true) => &mut group.granted,
            (false, false) => &mut group.denied,
        } |= rule.mask;
    }
    granted | (open & group.verdict().1)
}
