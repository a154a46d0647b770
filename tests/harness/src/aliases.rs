//! Random aliases: leaves of a directory that lead to entries, to nothing, to one another, to
//! themselves; and names that go through them.

use crate::random::Random;
use crate::world::{entry, free_part, rewrite, MAX_DEPTH};
use peer::builder::{DirectorySheet, Name};

/// Makes some leaves aliases, and sometimes adds a chain of them.
pub fn add_aliases(random: &mut Random, directory: &mut DirectorySheet) {
    if directory.entries.is_empty() || random.percent(40) {
        return;
    }
    let chance = *random.pick(&[10, 30, 60]);
    for index in 0..directory.entries.len() {
        if is_leaf(directory, index) && random.percent(chance) {
            directory.entries[index].target = Some(target(random, directory, index));
        }
    }
    if random.once_in(6) {
        chain(random, directory);
    }
}

fn is_leaf(directory: &DirectorySheet, index: usize) -> bool {
    directory.entries.iter().all(|entry| entry.parent as usize != index + 1)
}

/// A target of 1 to 8 parts for the alias at an index.
fn target(random: &mut Random, directory: &DirectorySheet, index: usize) -> Name {
    let mut name = directory.name(random.below(directory.entries.len()));
    match random.below(20) {
        0 | 1 => name = directory.name(index),
        2 => name = (0..random.between(1, 3)).map(|_| free_part(random, directory)).collect(),
        // Long, so that what is replaced has eight parts, or more.
        3 | 4 => {
            let length = random.between(6, MAX_DEPTH);
            while name.len() < length {
                name.push(free_part(random, directory));
            }
        }
        // Below an alias.
        5..=7 => {
            if let Some(alias) = some_alias(random, directory) {
                name = through(random, directory, alias);
            }
        }
        8 if name.len() < MAX_DEPTH => name.push(free_part(random, directory)),
        _ => {}
    }
    if random.percent(50) {
        rewrite(random, directory, &mut name);
    }
    name
}

/// Aliases that lead from one to the next, about as many as are followed, and from the last to an
/// entry.
fn chain(random: &mut Random, directory: &mut DirectorySheet) {
    let end = directory.name(random.below(directory.entries.len()));
    let mut next = end;
    for _ in 0..random.between(7, 10) {
        let count = directory.entries.len();
        let parent = random.between(0, count);
        let below = parent > 0
            && (directory.entries[parent - 1].target.is_some()
                || directory.depth(parent - 1) == MAX_DEPTH);
        let parent = if below { 0 } else { parent as u32 };
        let Some(mut alias) = entry(random, directory, parent) else {
            return;
        };
        alias.target = Some(next);
        directory.entries.push(alias);
        next = directory.name(count);
    }
}

fn some_alias(random: &mut Random, directory: &DirectorySheet) -> Option<usize> {
    let aliases: Vec<usize> = (0..directory.entries.len())
        .filter(|&index| directory.entries[index].target.is_some())
        .collect();
    (!aliases.is_empty()).then(|| *random.pick(&aliases))
}

/// A name that goes through some alias, if there is one.
pub fn name_through_alias(random: &mut Random, directory: &DirectorySheet) -> Option<Name> {
    // The last ones more often: a chain begins with the last.
    let last = directory.entries.len().checked_sub(1)?;
    let alias = match directory.entries[last].target {
        Some(_) if random.percent(30) => last,
        _ => some_alias(random, directory)?,
    };
    let mut name = through(random, directory, alias);
    rewrite(random, directory, &mut name);
    Some(name)
}

/// The alias's name, alone or with parts after it: those of an entry below its target, or any.
fn through(random: &mut Random, directory: &DirectorySheet, alias: usize) -> Name {
    let mut name = directory.name(alias);
    let target = directory.entries[alias].target.clone().unwrap_or_default();
    match random.below(10) {
        0..=3 => {}
        4..=7 => {
            let below = (0..directory.entries.len())
                .map(|index| directory.name(index))
                .filter(|other| other.len() > target.len() && other.starts_with(&target));
            let below: Vec<Name> = below.collect();
            if !below.is_empty() {
                name.extend(random.pick(&below)[target.len()..].iter().cloned());
            }
        }
        8 => name.push(free_part(random, directory)),
        _ => {
            while name.len() < MAX_DEPTH && random.percent(80) {
                name.push(free_part(random, directory));
            }
        }
    }
    name.truncate(MAX_DEPTH);
    name
}
