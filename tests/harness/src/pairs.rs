//! Pairs of directories that are alike for a requester: one is changed at random, and a change
//! stays only if the directory is still accepted and shows the same.

use crate::random::Random;
use crate::requests::requester;
use crate::shown::{aliases, shown, Requester};
use crate::values::{equal, fits, value, variant};
use crate::world::{
    add_value, entry, free_part, item, rewrite, some_value, stored_name, world, World,
};
use peer::builder::{DirectorySheet, EntryLines, ItemLines, Name, PermissionSheet, Thing, User};
use peer::directory::Directory;
use peer::form::Form;

pub struct Pair {
    /// Of both, and of what they are asked.
    pub form: Form,
    pub one: DirectorySheet,
    pub other: DirectorySheet,
    pub permissions: PermissionSheet,
    pub requester: Requester,
    /// Those that stayed.
    pub changes: Vec<Change>,
}

const ATTEMPTS: usize = 14;

/// When two directories count as alike.
#[derive(Clone, Copy, PartialEq, Eq)]
pub enum Notion {
    /// The same is shown, and they hold the same aliases with the same targets.
    Alike,
    /// Too little: aliases are not compared.
    WithoutAliases,
    /// Too little: aliases are compared, their targets are not.
    WithoutTargets,
}

impl Notion {
    /// Whether the directories have as much in common, apart from what they show.
    fn holds(self, one: &DirectorySheet, other: &DirectorySheet) -> bool {
        let names = |directory| -> Vec<Name> {
            aliases(directory).into_iter().map(|(name, _)| name).collect()
        };
        match self {
            Notion::Alike => aliases(one) == aliases(other),
            Notion::WithoutAliases => true,
            Notion::WithoutTargets => names(one) == names(other),
        }
    }
}

/// A pair whose directories differ, if one was found in a few attempts.
pub fn pair(random: &mut Random) -> Option<Pair> {
    pair_under(Notion::Alike, random)
}

pub fn pair_under(notion: Notion, random: &mut Random) -> Option<Pair> {
    let form = *random.pick(&Form::ALL);
    let World { directory: one, mut permissions } = world(random, form);
    if one.types.is_empty() {
        return None;
    }
    let requester = Requester { level: *random.pick(&[0, 1, 2]), name: requester(random, &one) };
    hide(random, &one, &requester, &mut permissions);
    let before = shown(&one, &permissions, &requester);
    let mut other = one.clone();
    let mut changes = Vec::new();
    for _ in 0..ATTEMPTS {
        let mut changed = other.clone();
        let change = *random.pick(&Change::ALL);
        change.apply(random, &permissions, &mut changed);
        if changed != other
            && Directory::decode(form, &changed.to_bytes(form)).is_ok()
            && notion.holds(&one, &changed)
            && shown(&changed, &permissions, &requester) == before
        {
            other = changed;
            changes.push(change);
        }
    }
    (other != one).then_some(Pair { form, one, other, permissions, requester, changes })
}

/// Adds items that hide entries, types or values from the requester.
fn hide(
    random: &mut Random,
    directory: &DirectorySheet,
    requester: &Requester,
    permissions: &mut PermissionSheet,
) {
    for _ in 0..random.between(1, 5) {
        let &(kind, syntax) = random.pick(&directory.types);
        let what = match random.below(10) {
            0..=3 => Thing::Entry,
            4 => Thing::Type(kind),
            5 => Thing::ValuesOf(kind),
            6..=8 => match some_value(random, directory) {
                Some((kind, value)) => Thing::Value(kind, value),
                None => Thing::Value(kind, value(random, syntax)),
            },
            _ => Thing::AllTypesAndValues,
        };
        let base = if random.percent(30) && what != Thing::Entry {
            Vec::new()
        } else {
            hidden_name(random, directory)
        };
        let mask = if random.percent(70) { 63 } else { random.between(1, 63) as u32 };
        permissions.items.push(ItemLines {
            precedence: *random.pick(&[2, 200]),
            level: 0,
            grants: false,
            subtree: random.percent(60),
            base,
            who: from_whom(random, directory, requester),
            what,
            mask,
        });
    }
    if random.percent(30) {
        permissions.items.push(item(random, directory));
    }
    // What may be told about what is hidden.
    if random.percent(40) {
        let mask = *random.pick(&[8, 8, 9, 12]);
        let told = ItemLines {
            base: stored_name(random, directory),
            ..ItemLines::everywhere(255, true, Thing::Entry, mask)
        };
        permissions.items.push(told);
    }
}

/// The name of an entry; often where an alias leads.
fn hidden_name(random: &mut Random, directory: &DirectorySheet) -> Name {
    let alias = some_alias(random, directory).filter(|_| random.percent(40));
    match alias.and_then(|alias| directory.entries[alias].target.clone()) {
        Some(target) => target,
        None => stored_name(random, directory),
    }
}

/// All users, or the requester in other writing, if the schema allows the name.
fn from_whom(random: &mut Random, directory: &DirectorySheet, requester: &Requester) -> User {
    let mut name = requester.name.clone();
    rewrite(random, directory, &mut name);
    let allowed = name
        .iter()
        .all(|(kind, value)| directory.syntax(*kind).is_some_and(|syntax| fits(syntax, value)));
    match random.below(6) {
        0 if allowed => User::Named(name),
        1 if allowed => User::AtOrBelow(name),
        _ => User::All,
    }
}

/// The ways in which a directory is changed.
#[derive(Clone, Copy, Debug, PartialEq, Eq, PartialOrd, Ord)]
pub enum Change {
    RemoveSubtree,
    AddEntry,
    Rename,
    AddValue,
    RemoveValue,
    ReplaceValue,
    OtherWriting,
    RemoveType,
    OrderOfValues,
    OrderOfEntries,
    /// Of aliases, with what else stands between them.
    OrderOfAliases,
    /// An entry that an alias leads to, or one below it.
    BehindAlias,
    /// Where an alias leads, and whether an entry is one: only under a notion that is too little.
    Target,
}

impl Change {
    pub const ALL: [Change; 13] = [
        Change::RemoveSubtree,
        Change::AddEntry,
        Change::Rename,
        Change::AddValue,
        Change::RemoveValue,
        Change::ReplaceValue,
        Change::OtherWriting,
        Change::RemoveType,
        Change::OrderOfValues,
        Change::OrderOfEntries,
        Change::OrderOfAliases,
        Change::BehindAlias,
        Change::Target,
    ];

    fn apply(
        self,
        random: &mut Random,
        permissions: &PermissionSheet,
        directory: &mut DirectorySheet,
    ) {
        if self == Change::AddEntry {
            return insert(random, permissions, directory);
        }
        if directory.entries.is_empty() {
            return;
        }
        let index = match self {
            Change::OrderOfAliases => some_alias(random, directory),
            Change::BehindAlias => behind_alias(random, directory),
            _ => Some(random.below(directory.entries.len())),
        };
        let Some(index) = index else {
            return;
        };
        let &(kind, syntax) = random.pick(&directory.types);
        let syntaxes = directory.types.clone();
        let entry = &mut directory.entries[index];
        let place = random.below(entry.values.len());
        let (held_kind, held) = entry.values[place].clone();
        let held_syntax =
            syntaxes.iter().find(|(kind, _)| *kind == held_kind).map_or(0, |&(_, s)| s);
        match self {
            Change::RemoveSubtree => remove(directory, index),
            Change::AddEntry => {}
            Change::Rename => rename(random, directory, index),
            Change::AddValue => {
                let value = value(random, syntax);
                add_value(random, entry, kind, syntax, value);
            }
            Change::RemoveValue => {
                entry.values.remove(place);
            }
            Change::ReplaceValue => {
                entry.values.remove(place);
                let value = value(random, held_syntax);
                add_value(random, entry, held_kind, held_syntax, value);
            }
            Change::OtherWriting => entry.values[place].1 = variant(random, held_syntax, &held),
            Change::RemoveType => entry.values.retain(|(kind, _)| *kind != held_kind),
            Change::OrderOfValues => {
                let other = random.below(entry.values.len());
                if entry.values[other].0 == held_kind {
                    entry.values.swap(place, other);
                }
            }
            Change::OrderOfEntries | Change::OrderOfAliases => shift(random, directory, index),
            Change::BehindAlias => match random.below(3) {
                0 => rename(random, directory, index),
                1 => remove(directory, index),
                _ => {
                    let value = value(random, syntax);
                    add_value(random, entry, kind, syntax, value);
                }
            },
            Change::Target => {
                let target = random.percent(80).then(|| stored_name(random, directory));
                directory.entries[index].target = target;
            }
        }
    }
}

fn some_alias(random: &mut Random, directory: &DirectorySheet) -> Option<usize> {
    let is_alias = |&index: &usize| directory.entries[index].target.is_some();
    let places: Vec<usize> = (0..directory.entries.len()).filter(is_alias).collect();
    (!places.is_empty()).then(|| *random.pick(&places))
}

/// An entry at or below the target of some alias, found by its stored name.
fn behind_alias(random: &mut Random, directory: &DirectorySheet) -> Option<usize> {
    let alias = some_alias(random, directory)?;
    let target = directory.entries[alias].target.as_ref()?;
    let behind = |&index: &usize| {
        let name = directory.name(index);
        name.len() >= target.len()
            && name.iter().zip(target).all(|((kind, value), (wanted, other))| {
                let syntax = directory.syntax(*kind).unwrap_or_default();
                kind == wanted && equal(syntax, value, other)
            })
    };
    let places: Vec<usize> = (0..directory.entries.len()).filter(behind).collect();
    (!places.is_empty()).then(|| *random.pick(&places))
}

/// Removes an entry and all below it.
fn remove(directory: &mut DirectorySheet, index: usize) {
    let mut gone = vec![false; directory.entries.len()];
    gone[index] = true;
    for later in index + 1..gone.len() {
        let parent = directory.entries[later].parent as usize;
        gone[later] = parent > 0 && gone[parent - 1];
    }
    let order: Vec<usize> = (0..gone.len()).filter(|&index| !gone[index]).collect();
    reorder(directory, &order);
}

/// A new entry at a random place; often one of a name that some item speaks of.
fn insert(random: &mut Random, permissions: &PermissionSheet, directory: &mut DirectorySheet) {
    let mut parent = random.between(0, directory.entries.len()) as u32;
    let mut named = None;
    if random.percent(60) && !permissions.items.is_empty() {
        // The longest existing beginning of a base, and the part after it.
        let base = &random.pick(&permissions.items).base;
        let mut above = 0;
        for (kind, value) in base {
            let child = directory.entries.iter().position(|entry| {
                entry.parent == above
                    && entry.naming.0 == *kind
                    && equal(directory.syntax(*kind).unwrap_or_default(), &entry.naming.1, value)
            });
            match child {
                Some(index) => above = index as u32 + 1,
                None => {
                    named = Some(EntryLines::bare(above, *kind, value));
                    break;
                }
            }
        }
        parent = above;
    }
    let new = match named {
        Some(named) => {
            let mut full = named.clone();
            if let Some(extra) = entry(random, directory, parent) {
                for (kind, value) in extra.values {
                    let syntax = directory.syntax(kind).unwrap_or_default();
                    add_value(random, &mut full, kind, syntax, value);
                }
            }
            Some(full)
        }
        None => entry(random, directory, parent),
    };
    if let Some(new) = new {
        directory.entries.push(new);
        shift(random, directory, directory.entries.len() - 1);
    }
}

fn rename(random: &mut Random, directory: &mut DirectorySheet, index: usize) {
    let naming = free_part(random, directory);
    let syntax = directory.syntax(naming.0).unwrap_or_default();
    let held = variant(random, syntax, &naming.1);
    let entry = &mut directory.entries[index];
    entry.naming = naming;
    let kind = entry.naming.0;
    add_value(random, entry, kind, syntax, held);
}

/// Moves an entry to another place between its parent and its first child.
fn shift(random: &mut Random, directory: &mut DirectorySheet, index: usize) {
    let number = index as u32 + 1;
    let lowest = directory.entries[index].parent as usize;
    let child = directory.entries.iter().position(|entry| entry.parent == number);
    let highest = child.unwrap_or(directory.entries.len()) - 1;
    let mut order: Vec<usize> = (0..directory.entries.len()).collect();
    order.remove(index);
    order.insert(random.between(lowest, highest), index);
    reorder(directory, &order);
}

/// Keeps the entries at the old indices in `order`, in that order, with parents renumbered.
fn reorder(directory: &mut DirectorySheet, order: &[usize]) {
    let mut numbers = vec![0; directory.entries.len() + 1];
    for (place, &old) in order.iter().enumerate() {
        numbers[old + 1] = place as u32 + 1;
    }
    directory.entries = order
        .iter()
        .map(|&old| {
            let mut entry = directory.entries[old].clone();
            entry.parent = numbers[entry.parent as usize];
            entry
        })
        .collect();
}
