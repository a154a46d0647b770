//! The name asked for, with aliases replaced by their targets.

use crate::directory::{Directory, Number, MAX_DEPTH};
use crate::fault::{planted, Fault};
use crate::name::Asked;

const MOST: usize = 8;

/// What a name leads to once no alias's name is its beginning.
pub struct Resolved<'a> {
    pub name: Asked<'a>,
    /// The entries that the name's beginnings lead to, as far as they exist.
    pub path: Vec<Number>,
    /// One replacement more would be needed than may be made.
    pub problem: bool,
}

/// Replaces while the name begins with an alias's name. `may` is asked whether an alias may be
/// replaced, which only a planted fault denies.
pub fn resolve<'a>(
    directory: &Directory<'a>,
    name: &Asked<'a>,
    mut may: impl FnMut(Number) -> bool,
) -> Resolved<'a> {
    let mut name = name.clone();
    let most = match () {
        _ if planted(Fault::NinthReplacementMade) => MOST + 1,
        _ if planted(Fault::SevenReplacementsAtMost) => MOST - 1,
        _ => MOST,
    };
    for made in 0.. {
        let path = directory.walk(name.iter().map(Option::as_ref));
        let alias = path.iter().position(|&number| directory.entry(number).is_alias());
        let too_long = match () {
            _ if made == 0 => false,
            _ if planted(Fault::LongNamesReplaced) => false,
            _ if planted(Fault::EightPartsAreTooLong) => name.len() >= MAX_DEPTH,
            _ => name.len() > MAX_DEPTH,
        };
        let Some(place) = alias.filter(|_| !too_long) else {
            let problem = match () {
                _ if planted(Fault::LongNameIsAliasProblem) => too_long,
                _ if planted(Fault::AbsentTargetIsAliasProblem) => {
                    made > 0 && path.len() < name.len()
                }
                _ => false,
            };
            // A name of eight parts may exist, so the fault alone makes it absent.
            let absent = too_long && name.len() == MAX_DEPTH;
            let path = if absent { Vec::new() } else { path };
            return Resolved { name, path, problem };
        };
        let stays = match () {
            _ if planted(Fault::WholeNamesReplacedAlone) => place + 1 < name.len(),
            _ if planted(Fault::ProperBeginningsReplacedAlone) => place + 1 == name.len(),
            _ if planted(Fault::ReplacedIfTargetExists) => {
                let target = directory.target(path[place]);
                directory.walk(target.iter().map(Option::as_ref)).len() < target.len()
            }
            _ => !may(path[place]),
        };
        if stays {
            return Resolved { name, path, problem: false };
        }
        if made == most {
            let path = Vec::new();
            return Resolved { name, path, problem: !planted(Fault::LoopIsAbsent) };
        }
        let rest = match () {
            _ if planted(Fault::RestOfNameDropped) => &[],
            _ => &name[place + 1..],
        };
        let mut replaced = [directory.target(path[place]), rest].concat();
        if planted(Fault::LongNamesCut) {
            replaced.truncate(MAX_DEPTH);
        }
        name = replaced;
    }
    unreachable!("the last replacement returns")
}
