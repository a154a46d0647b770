//! Asks the same requests of two directories that are alike for the requester, as the exchange and
//! as a panel, in either form: refusal, length and bytes must be equal. Planted faults that leak show that a leak
//! is found.
//!
//! SEED and PAIRS (4,000) come from the environment.

use harness::damage::{damage, Which};
use harness::lent::ask;
use harness::pairs::{pair, pair_under, Change, Notion, Pair};
use harness::random::{number_from_environment, Random};
use harness::report::Report;
use harness::requests::{order, request_of};
use harness::server::{subject, Peer, Server};
use harness::shown::{aliases, shown, Requester};
use harness::values::unfit;
use harness::written::digit;
use peer::builder::{FilterLines, OperationLines, Selected};
use peer::caller::{Call, Caller, PANEL_ROOM};
use peer::fault::Fault;
use peer::form::Form;
use std::collections::BTreeMap;
use std::process::ExitCode;

const REQUESTS: usize = 25;
const ROOM: usize = 65_536 / 4;

fn main() -> ExitCode {
    let total = number_from_environment("PAIRS", 4_000);
    let mut random = Random::from_environment();
    let subject = subject();
    let mut report = Report::new("two_directories");
    let mut hidden: Vec<Fault> = Fault::ALL.iter().copied().filter(|fault| fault.leaks()).collect();
    let leaks = hidden.clone();
    let (mut pairs, mut showing, mut with_aliases) = (0, 0, 0);
    let mut replies: BTreeMap<(u64, char), u64> = BTreeMap::new();
    let mut changes: BTreeMap<Change, u64> = BTreeMap::new();
    let mut forms: BTreeMap<Form, u64> = BTreeMap::new();

    while pairs < total {
        let Some(pair) = pair(&mut random) else {
            continue;
        };
        pairs += 1;
        for &change in &pair.changes {
            *changes.entry(change).or_default() += 1;
        }
        let form = pair.form;
        *forms.entry(form).or_default() += 1;
        let (one, other) = (pair.one.to_bytes(form), pair.other.to_bytes(form));
        let permissions = pair.permissions.to_bytes(form);
        for _ in 0..REQUESTS {
            let mut perm = permissions.clone();
            let mut req = ask_about(&mut random, &pair);
            if random.once_in(20) {
                spoil(&mut random, form, &one, &mut perm, &mut req);
            }
            for caller in Caller::ALL {
                let call = Call::new(caller, form);
                let room = room(&mut random, call, [&one, &perm, &req]);
                let differs = |server: &dyn Server| {
                    let first = ask(server, call, &one, &perm, &req, room);
                    let second = ask(server, call, &other, &perm, &req, room);
                    let accepted = |refusal| !(1..=6).contains(&refusal);
                    let good = first == second
                        && first.is_sound()
                        && accepted(first.reply.refusal)
                        && accepted(second.reply.refusal);
                    (!good).then(|| (first.describe(), second.describe()))
                };
                let reply = ask(subject.as_ref(), call, &one, &perm, &req, room);
                let outcome = reply.answer().map_or('-', |answer| digit(form, answer, 2));
                let seen = (reply.reply.refusal, outcome);
                *replies.entry(seen).or_default() += 1;
                let difference = differs(subject.as_ref());
                report.case(difference.is_none(), || {
                    let text = |sheet: &[u8]| String::from_utf8_lossy(sheet).into_owned();
                    let (first, second) = difference.unwrap_or_default();
                    let sheets = [text(&one), text(&other), text(&perm), text(&req)].join("--\n");
                    format!("pair {pairs}, {call:?}, room {room}\n{sheets}\n{first}\n{second}")
                });
                hidden.retain(|&fault| {
                    let leak = differs(&Peer { fault: Some(fault) }).is_some();
                    if leak {
                        println!("planted leak {fault:?}: found at pair {pairs}");
                    }
                    !leak
                });
            }
        }
        let seen = shown(&pair.one, &pair.permissions, &pair.requester);
        showing += u64::from(!seen.is_empty());
        let alike = seen == shown(&pair.other, &pair.permissions, &pair.requester)
            && aliases(&pair.one) == aliases(&pair.other);
        assert!(alike && pair.one.types == pair.other.types, "the pair is not alike");
        with_aliases += u64::from(!aliases(&pair.one).is_empty());
    }

    println!("{pairs} pairs, {showing} of them showing something, {with_aliases} with aliases");
    println!("hidden changes: {changes:?}");
    println!("pairs by form: {forms:?}; replies by refusal and outcome: {replies:?}");
    report.check(showing > total / 2, "too few pairs show something");
    report.check(with_aliases > total / 4, "too few pairs have aliases");
    let equal = report.failed() == 0;
    report.check(equal, "alike directories gave different answers");
    let kept = |change: &Change| *change != Change::Target;
    for change in Change::ALL.into_iter().filter(kept) {
        let enough = changes.get(&change).is_some_and(|&count| count >= total / 40);
        report.check(enough, &format!("hidden change {change:?} was made too seldom"));
    }
    for fault in leaks {
        report.check(!hidden.contains(&fault), &format!("planted leak {fault:?} was not found"));
    }
    for (notion, what) in [(Notion::WithoutAliases, "aliases"), (Notion::WithoutTargets, "targets")]
    {
        let needed = tells_apart(&mut random, notion, total / 4);
        report.check(needed, &format!("a notion of alike without {what} would do"));
    }
    report.finish()
}

/// Whether the peer answers otherwise in some pair that is alike only under a lesser notion.
fn tells_apart(random: &mut Random, notion: Notion, total: u64) -> bool {
    (0..total).any(|_| {
        pair_under(notion, random).is_some_and(|pair| {
            let [one, other] = [&pair.one, &pair.other].map(|dir| dir.to_bytes(pair.form));
            let perm = pair.permissions.to_bytes(pair.form);
            (0..REQUESTS).any(|_| {
                let req = ask_about(random, &pair);
                let call = Call::new(Caller::Exchange, pair.form);
                let [first, second] =
                    [&one, &other].map(|dir| ask(&Peer::default(), call, dir, &perm, &req, ROOM));
                first != second
            })
        })
    })
}

/// A request of the pair's requester, about names and values of either directory.
fn ask_about(random: &mut Random, pair: &Pair) -> Vec<u8> {
    let directory = if random.percent(50) { &pair.one } else { &pair.other };
    let Requester { level, name } = pair.requester.clone();
    let mut request = request_of(random, pair.form, directory, level, name);
    if random.once_in(8) && !directory.entries.is_empty() {
        // Has an entry this value, or this type, which it may have in one of the two alone?
        let index = random.below(directory.entries.len());
        let (kind, mut value) = random.pick(&directory.entries[index].values).clone();
        if random.once_in(3) {
            value = unfit(random, directory.syntax(kind).unwrap_or_default());
        }
        request.name = directory.name(index);
        request.operation = OperationLines::Compare(kind, value);
    }
    if random.once_in(6) {
        // In an order that values out of sight must not change.
        request.name.clear();
        request.operation = OperationLines::Search {
            limit: *random.pick(&[0, 0, 1, 2, 3]),
            selected: Selected { types: Some(Vec::new()), values: false },
            order: Some(order(random, directory)),
            subset: random.between(1, 2) as u32,
            filter: FilterLines::And(Vec::new()),
        };
    }
    let listed = aliases(directory).into_iter().next().filter(|_| random.once_in(12));
    if let Some((mut name, _)) = listed {
        name.pop();
        request.name = name;
        request.operation = OperationLines::List { limit: 0 };
    }
    request.to_bytes(pair.form)
}

/// Damages permissions or request. The pair need only be alike for the sheets it was made for,
/// so damage stays only where it leads to a refusal.
fn spoil(random: &mut Random, form: Form, dir: &[u8], perm: &mut Vec<u8>, req: &mut Vec<u8>) {
    let (mut worse_perm, mut worse_req) = (perm.clone(), req.clone());
    if random.percent(50) {
        damage(random, form, Which::Permissions, &mut worse_perm);
    } else {
        damage(random, form, Which::Request, &mut worse_req);
    }
    let call = Call::new(Caller::Exchange, form);
    let reply = peer::serve_for(call, dir, &worse_perm, &worse_req, usize::MAX);
    if matches!(reply, Err(11..=24)) {
        (*perm, *req) = (worse_perm, worse_req);
    }
}

fn room(random: &mut Random, call: Call, [dir, perm, req]: [&[u8]; 3]) -> usize {
    let most = match call.caller {
        Caller::Exchange => ROOM,
        Caller::Panel if random.once_in(20) => PANEL_ROOM + 1,
        Caller::Panel => PANEL_ROOM,
    };
    if random.percent(70) {
        return most;
    }
    let answer = peer::serve_for(call, dir, perm, req, most);
    let answer = answer.map_or(call.form.line(), |answer| answer.len());
    match random.below(4) {
        0 => answer.saturating_sub(1),
        1 => answer,
        2 => answer + random.below(100),
        _ => random.below(answer + 1),
    }
}
