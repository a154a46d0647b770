//! One stream of cases for comparing servers: ordinary, damaged, and at the limits.

use crate::damage::{damage, Which};
use crate::limits;
use crate::random::Random;
use crate::requests::request;
use crate::values::variant;
use crate::world::{world, World};
use peer::builder::{EntryLines, FilterLines, RequestSheet, Selected};
use peer::caller::{Caller, PANEL_ROOM};
use peer::form::Form;

pub struct Case {
    pub form: Form,
    pub dir: Vec<u8>,
    pub perm: Vec<u8>,
    pub req: Vec<u8>,
}

/// Requests asked of one world before the next is made.
const REQUESTS: usize = 6;

pub struct Cases {
    random: Random,
    /// Those of the cases.
    forms: &'static [Form],
    form: Form,
    world: World,
    dir: Vec<u8>,
    perm: Vec<u8>,
    left: usize,
}

impl Cases {
    /// In both forms.
    pub fn new(random: Random) -> Self {
        Cases::of(&Form::ALL, random)
    }

    /// In some forms alone.
    pub fn of(forms: &'static [Form], mut random: Random) -> Self {
        let form = forms[0];
        let world = world(&mut random, form);
        let (dir, perm) = (world.directory.to_bytes(form), world.permissions.to_bytes(form));
        Cases { random, forms, form, world, dir, perm, left: REQUESTS }
    }

    pub fn next_case(&mut self) -> Case {
        if self.random.once_in(50) {
            let form = *self.random.pick(self.forms);
            return at_the_limits(&mut self.random, form);
        }
        if self.left == 0 {
            self.form = *self.random.pick(self.forms);
            self.world = world(&mut self.random, self.form);
            self.dir = self.world.directory.to_bytes(self.form);
            self.perm = self.world.permissions.to_bytes(self.form);
            self.left = REQUESTS;
        }
        self.left -= 1;
        let form = self.form;
        let req = request(&mut self.random, form, &self.world.directory).to_bytes(form);
        let mut case = Case { form, dir: self.dir.clone(), perm: self.perm.clone(), req };
        if self.random.percent(40) {
            for _ in 0..*self.random.pick(&[1, 1, 1, 2, 3]) {
                damage_one(&mut self.random, &mut case);
            }
        }
        case
    }

    /// A buffer length for an answer of a length; a panel's seldom too long.
    pub fn room(&mut self, caller: Caller, answer: usize) -> usize {
        match (caller, self.random.below(20)) {
            (Caller::Exchange, _) => self.any_room(answer),
            (Caller::Panel, 0..=3) => PANEL_ROOM,
            (Caller::Panel, 4) => PANEL_ROOM + 1,
            (Caller::Panel, 5) => PANEL_ROOM + self.random.below(9_000),
            (Caller::Panel, _) => self.any_room(answer).min(PANEL_ROOM),
        }
    }

    /// A buffer length for a moved sheet of a length.
    pub fn room_to_move(&mut self, moved: usize) -> usize {
        match self.random.below(if moved > 40_000 { 4 } else { 8 }) {
            0 => 65_536 + self.random.below(3),
            1 => 200_000,
            _ => self.any_room(moved),
        }
    }

    /// Too short, equal, longer.
    fn any_room(&mut self, answer: usize) -> usize {
        let random = &mut self.random;
        match random.below(20) {
            0 => 0,
            1 => random.below(answer + 1),
            2..=4 => answer.saturating_sub(1),
            5..=8 => answer,
            9 | 10 => answer + 1,
            11 => 65_536,
            _ => answer + random.below(200),
        }
    }
}

fn damage_one(random: &mut Random, case: &mut Case) {
    let (which, sheet) = match random.below(3) {
        0 => (Which::Directory, &mut case.dir),
        1 => (Which::Permissions, &mut case.perm),
        _ => (Which::Request, &mut case.req),
    };
    damage(random, case.form, which, sheet);
}

/// One sheet just within or just beyond a limit, the others plain.
fn at_the_limits(random: &mut Random, form: Form) -> Case {
    let over = random.below(2);
    let mut directory = limits::wide_directory(random.between(1, 8));
    directory.entries[0].values.push((2, b"Banana".to_vec()));
    directory.entries[0].values.push((3, b"-7".to_vec()));
    let mut permissions = limits::open_permissions();
    let mut asked = limits::search(FilterLines::Present(1));
    let deepen = |random: &mut Random, filter: FilterLines, asked: &mut RequestSheet| {
        let list = random.percent(50).then(|| vec![1; random.between(0, 16)]);
        let selected = Selected { types: list, values: random.percent(50) };
        *asked = limits::search_with(filter, selected);
    };
    match random.below(20) {
        0 => directory = limits::directory_of_length(form, 65_536 + over),
        1 => {
            directory = limits::wide_directory(256 + over);
            if let Some(last) = directory.entries.last_mut() {
                last.parent = *random.pick(&[0, 255, 256, 257, 257]);
            }
        }
        2 | 3 => directory = limits::deep_directory(8 + over),
        4 => directory = limits::directory_of_types(64 + over),
        5 => permissions = limits::permissions_of_length(form, 65_536 + over),
        6 => permissions = limits::permissions_of_items(256 + over),
        7 => asked = limits::request_of_length(form, 8_192 + over),
        8 => deepen(random, limits::filter_of_depth(16 + over), &mut asked),
        9 => deepen(random, limits::filter_of_lines(128 + over), &mut asked),
        10 => deepen(random, limits::filter_of_pieces(128 + over), &mut asked),
        11 => deepen(random, limits::substrings_at_depth(16 + over), &mut asked),
        12 => deepen(random, limits::substrings_of(8 + over), &mut asked),
        13 => {
            asked.name = vec![(1, b"d".to_vec()); 8 + over];
            directory = limits::deep_directory(8);
        }
        14 => directory = limits::large_directory(),
        // As long when it is moved to the other form.
        16..=18 => directory = limits::directory_of_length(form.other(), 65_536 + over),
        15 => {
            let selected = Selected { types: Some(vec![1; 16 + over]), values: true };
            asked = limits::search_with(FilterLines::Present(1), selected);
        }
        _ => {
            // An entry whose naming value and held value differ in letters or blanks alone.
            let held = variant(random, 1, b"Ann");
            let mut entry = EntryLines::bare(0, 2, b"Ann");
            entry.values[0].1 = held;
            directory.entries.push(entry);
        }
    }
    let mut case = Case {
        form,
        dir: directory.to_bytes(form),
        perm: permissions.to_bytes(form),
        req: asked.to_bytes(form),
    };
    if random.once_in(6) {
        damage_one(random, &mut case);
    }
    case
}
