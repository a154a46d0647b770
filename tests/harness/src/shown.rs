//! What a requester is shown of a directory, found the plain way from document 01. It shares no
//! code with the peer, and judges each permission by itself.

use crate::values::{equal, fits};
use peer::builder::{DirectorySheet, ItemLines, Name, PermissionSheet, Thing, User};
use std::collections::BTreeSet;

const READ: u32 = 1;
const BROWSE: u32 = 2;
const RETURN_DN: u32 = 4;
const DISCLOSE_ON_ERROR: u32 = 8;
const COMPARE: u32 = 16;
const FILTER_MATCH: u32 = 32;

#[derive(Clone, Debug)]
pub struct Requester {
    pub level: u32,
    pub name: Name,
}

#[derive(Debug, PartialEq, Eq)]
pub struct ShownEntry {
    name: Name,
    types: Vec<ShownType>,
}

#[derive(Debug, PartialEq, Eq)]
struct ShownType {
    kind: u32,
    values: Vec<Vec<u8>>,
}

/// Entries with one of Read, Browse, ReturnDN, DiscloseOnError; of these the types held with one
/// of Read, Compare, FilterMatch, DiscloseOnError; of those the values with one of the same.
pub fn shown(
    directory: &DirectorySheet,
    permissions: &PermissionSheet,
    requester: &Requester,
) -> Vec<ShownEntry> {
    let mut entries = Vec::new();
    for (index, entry) in directory.entries.iter().enumerate() {
        let view = View { directory, permissions, requester, entry: &directory.name(index) };
        if !view.any(&Asked::Entry, &[READ, BROWSE, RETURN_DN, DISCLOSE_ON_ERROR]) {
            continue;
        }
        let inner = [READ, COMPARE, FILTER_MATCH, DISCLOSE_ON_ERROR];
        let mut types: Vec<ShownType> = Vec::new();
        for (kind, value) in &entry.values {
            if !view.any(&Asked::Type(*kind), &inner) {
                continue;
            }
            if types.last().is_none_or(|last| last.kind != *kind) {
                types.push(ShownType { kind: *kind, values: Vec::new() });
            }
            if view.any(&Asked::Value(*kind, value), &inner) {
                if let Some(last) = types.last_mut() {
                    last.values.push(value.clone());
                }
            }
        }
        entries.push(ShownEntry { name: view.entry.clone(), types });
    }
    entries
}

/// The stored names and targets of all aliases, seen or not: who names one learns where it leads.
pub fn aliases(directory: &DirectorySheet) -> BTreeSet<(Name, &Name)> {
    let target = |index: usize| directory.entries[index].target.as_ref();
    (0..directory.entries.len())
        .filter_map(|index| Some((directory.name(index), target(index)?)))
        .collect()
}

/// The thing asked about.
enum Asked<'a> {
    Entry,
    Type(u32),
    Value(u32, &'a [u8]),
}

struct View<'a> {
    directory: &'a DirectorySheet,
    permissions: &'a PermissionSheet,
    requester: &'a Requester,
    entry: &'a Name,
}

impl View<'_> {
    fn any(&self, thing: &Asked, permissions: &[u32]) -> bool {
        permissions.iter().any(|&permission| self.granted(thing, permission))
    }

    /// "May this requester?", sentence by sentence.
    fn granted(&self, thing: &Asked, permission: u32) -> bool {
        let mut left: Vec<&ItemLines> = self
            .permissions
            .items
            .iter()
            .filter(|item| self.applies(item, thing, permission))
            .collect();
        let highest = left.iter().map(|item| item.precedence).max();
        left.retain(|item| Some(item.precedence) == highest);
        let nearest = left.iter().map(|item| specificity(&item.who)).max();
        left.retain(|item| Some(specificity(&item.who)) == nearest);
        if left.iter().any(|item| explicit(item, thing)) {
            left.retain(|item| explicit(item, thing));
        }
        !left.is_empty() && left.iter().all(|item| item.grants)
    }

    fn applies(&self, item: &ItemLines, thing: &Asked, permission: u32) -> bool {
        let base = if item.subtree {
            self.begins_with(self.entry, &item.base)
        } else {
            self.same_name(self.entry, &item.base)
        };
        base && self.fits(&item.who)
            && self.covers(&item.what, thing)
            && item.mask & permission != 0
            && (!item.grants || self.requester.level >= item.level)
    }

    fn fits(&self, who: &User) -> bool {
        let requester = &self.requester.name;
        match who {
            User::All => true,
            User::AtOrBelow(name) => self.begins_with(requester, name),
            User::Itself => self.same_name(requester, self.entry),
            User::Named(name) => self.same_name(requester, name),
        }
    }

    fn covers(&self, what: &Thing, thing: &Asked) -> bool {
        match (thing, what) {
            (Asked::Entry, Thing::Entry) => true,
            (Asked::Type(_), Thing::AllTypes | Thing::AllTypesAndValues) => true,
            (Asked::Type(kind), Thing::Type(named)) => kind == named,
            (Asked::Value(..), Thing::AllTypesAndValues) => true,
            (Asked::Value(kind, _), Thing::ValuesOf(named)) => kind == named,
            (Asked::Value(kind, value), Thing::Value(named, wanted)) => {
                kind == named && self.same_value(*kind, value, wanted)
            }
            _ => false,
        }
    }

    fn same_value(&self, kind: u32, one: &[u8], other: &[u8]) -> bool {
        match self.directory.syntax(kind) {
            Some(syntax) => fits(syntax, one) && fits(syntax, other) && equal(syntax, one, other),
            None => false,
        }
    }

    fn begins_with(&self, name: &Name, beginning: &Name) -> bool {
        name.len() >= beginning.len()
            && name.iter().zip(beginning).all(|((kind, value), (wanted, other))| {
                kind == wanted && self.same_value(*kind, value, other)
            })
    }

    fn same_name(&self, name: &Name, other: &Name) -> bool {
        name.len() == other.len() && self.begins_with(name, other)
    }
}

fn specificity(who: &User) -> u32 {
    match who {
        User::Named(_) | User::Itself => 2,
        User::AtOrBelow(_) => 1,
        User::All => 0,
    }
}

fn explicit(item: &ItemLines, thing: &Asked) -> bool {
    matches!(
        (thing, &item.what),
        (Asked::Type(_), Thing::Type(_)) | (Asked::Value(..), Thing::Value(..))
    )
}

#[cfg(test)]
mod tests {
    use super::*;
    use crate::random::Random;
    use crate::requests::request;
    use crate::world::world;
    use peer::decide::Judge;
    use peer::directory::Directory;
    use peer::form::Form;
    use peer::permissions::Permissions;
    use peer::request::Request;

    /// The sum of the permissions granted on a thing.
    fn sum(view: &View, thing: &Asked) -> u32 {
        (0..6).map(|bit| 1 << bit).filter(|&permission| view.granted(thing, permission)).sum()
    }

    #[test]
    fn the_peer_decides_alike() {
        let mut random = Random::new(7);
        for turn in 0..1500 {
            let form = Form::ALL[turn % 2];
            let world = world(&mut random, form);
            let asked = request(&mut random, form, &world.directory);
            let dir = world.directory.to_bytes(form);
            let perm = world.permissions.to_bytes(form);
            let req = asked.to_bytes(form);
            let directory = Directory::decode(form, &dir).unwrap_or_else(|_| panic!("directory"));
            let permissions = Permissions::decode(form, &perm, &directory)
                .unwrap_or_else(|_| panic!("permissions"));
            let request = Request::decode(form, &req, &directory.schema)
                .unwrap_or_else(|_| panic!("request"));
            let mut judge = Judge::new(&directory, &permissions, &request.requester);
            let requester = Requester { level: asked.level, name: asked.requester };
            for number in 1..=directory.len() {
                let name = world.directory.name(number - 1);
                let view = View {
                    directory: &world.directory,
                    permissions: &world.permissions,
                    requester: &requester,
                    entry: &name,
                };
                assert_eq!(u32::from(judge.enter(number)), sum(&view, &Asked::Entry));
                for &(kind, _) in &world.directory.types {
                    let slot = directory.schema.slot(kind).unwrap();
                    assert_eq!(u32::from(judge.of_type(slot)), sum(&view, &Asked::Type(kind)));
                    let entry = directory.entry(number);
                    for place in directory.places_of(entry, slot) {
                        let value = directory.values[place].bytes;
                        let plain = sum(&view, &Asked::Value(kind, value));
                        assert_eq!(u32::from(judge.of_value(slot, place)), plain);
                    }
                }
            }
        }
    }
}
