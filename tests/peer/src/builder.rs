//! Sheets written from Rust values, for tests and generators. Nothing is checked: values may be
//! as wrong as the test wants.

use crate::form::Form;
use crate::sheet::{append, Line};

/// Lines one after the other, in one form.
#[derive(Clone, Debug)]
pub struct Sheet {
    form: Form,
    pub bytes: Vec<u8>,
}

impl Sheet {
    pub fn new(form: Form) -> Self {
        Sheet { form, bytes: Vec::new() }
    }

    pub fn line(&mut self, kind: u32, a: u32, b: u32, c: u32, bytes: &[u8]) -> &mut Self {
        append(&mut self.bytes, self.form, &Line { kind, a, b, c, bytes });
        self
    }

    fn name(&mut self, name: &[(u32, Vec<u8>)]) {
        for (kind, value) in name {
            self.line(9, *kind, 0, 0, value);
        }
    }
}

/// Type and value from depth 1 down.
pub type Name = Vec<(u32, Vec<u8>)>;

#[derive(Clone, Debug, Default, PartialEq, Eq)]
pub struct DirectorySheet {
    /// Number and syntax.
    pub types: Vec<(u32, u32)>,
    pub entries: Vec<EntryLines>,
}

#[derive(Clone, Debug, PartialEq, Eq)]
pub struct EntryLines {
    pub parent: u32,
    pub naming: (u32, Vec<u8>),
    pub values: Vec<(u32, Vec<u8>)>,
    /// Of an alias.
    pub target: Option<Name>,
}

impl EntryLines {
    /// An entry that holds its naming value alone.
    pub fn bare(parent: u32, kind: u32, value: &[u8]) -> Self {
        let naming = (kind, value.to_vec());
        EntryLines { parent, values: vec![naming.clone()], naming, target: None }
    }
}

impl DirectorySheet {
    pub fn to_bytes(&self, form: Form) -> Vec<u8> {
        let mut sheet = Sheet::new(form);
        for &(number, syntax) in &self.types {
            sheet.line(1, number, syntax, 0, &[]);
        }
        for entry in &self.entries {
            let mark = u32::from(entry.target.is_some());
            sheet.line(2, entry.parent, entry.naming.0, mark, &entry.naming.1);
            for (kind, value) in &entry.values {
                sheet.line(3, *kind, 0, 0, value);
            }
            if let Some(target) = &entry.target {
                sheet.line(36, 0, target.len() as u32, 0, &[]);
                sheet.name(target);
            }
        }
        sheet.bytes
    }

    pub fn syntax(&self, kind: u32) -> Option<u32> {
        self.types.iter().find(|&&(number, _)| number == kind).map(|&(_, syntax)| syntax)
    }

    /// The stored full name of the entry at an index (its number less one).
    pub fn name(&self, index: usize) -> Name {
        let entry = &self.entries[index];
        let mut name = match entry.parent {
            0 => Vec::new(),
            parent => self.name(parent as usize - 1),
        };
        name.push(entry.naming.clone());
        name
    }

    pub fn depth(&self, index: usize) -> usize {
        match self.entries[index].parent {
            0 => 1,
            parent => 1 + self.depth(parent as usize - 1),
        }
    }
}

#[derive(Clone, Debug, PartialEq, Eq)]
pub enum User {
    All,
    AtOrBelow(Name),
    Itself,
    Named(Name),
}

#[derive(Clone, Debug, PartialEq, Eq)]
pub enum Thing {
    Entry,
    AllTypes,
    AllTypesAndValues,
    Type(u32),
    ValuesOf(u32),
    Value(u32, Vec<u8>),
}

#[derive(Clone, Debug, PartialEq, Eq)]
pub struct ItemLines {
    pub precedence: u32,
    pub level: u32,
    pub grants: bool,
    pub subtree: bool,
    pub base: Name,
    pub who: User,
    pub what: Thing,
    pub mask: u32,
}

impl ItemLines {
    /// For all users of every level, on every entry.
    pub fn everywhere(precedence: u32, grants: bool, what: Thing, mask: u32) -> Self {
        let base = Vec::new();
        ItemLines { precedence, level: 0, grants, subtree: true, base, who: User::All, what, mask }
    }
}

#[derive(Clone, Debug, Default, PartialEq, Eq)]
pub struct PermissionSheet {
    pub items: Vec<ItemLines>,
}

impl PermissionSheet {
    pub fn to_bytes(&self, form: Form) -> Vec<u8> {
        let mut sheet = Sheet::new(form);
        for item in &self.items {
            sheet.line(4, item.precedence, item.level, item.grants.into(), &[]);
            sheet.line(5, item.subtree.into(), item.base.len() as u32, 0, &[]);
            sheet.name(&item.base);
            let empty = Vec::new();
            let (kind, name) = match &item.who {
                User::All => (0, &empty),
                User::AtOrBelow(name) => (1, name),
                User::Itself => (2, &empty),
                User::Named(name) => (3, name),
            };
            sheet.line(6, kind, name.len() as u32, 0, &[]);
            sheet.name(name);
            match &item.what {
                Thing::Entry => sheet.line(7, 0, 0, 0, &[]),
                Thing::AllTypes => sheet.line(7, 1, 0, 0, &[]),
                Thing::AllTypesAndValues => sheet.line(7, 2, 0, 0, &[]),
                Thing::Type(kind) => sheet.line(7, 3, *kind, 0, &[]),
                Thing::ValuesOf(kind) => sheet.line(7, 4, *kind, 0, &[]),
                Thing::Value(kind, value) => sheet.line(7, 5, *kind, 0, value),
            };
            sheet.line(8, item.mask, 0, 0, &[]);
        }
        sheet.bytes
    }
}

#[derive(Clone, Debug, PartialEq, Eq)]
pub struct RequestSheet {
    pub level: u32,
    /// 0 later logic, 1 first edition.
    pub edition: u32,
    pub requester: Name,
    pub name: Name,
    pub operation: OperationLines,
}

#[derive(Clone, Debug, PartialEq, Eq)]
pub enum OperationLines {
    Read(Selected),
    Compare(u32, Vec<u8>),
    List {
        limit: u32,
    },
    Search {
        limit: u32,
        selected: Selected,
        /// Type, and 0 rising or 1 falling.
        order: Option<(u32, u32)>,
        subset: u32,
        filter: FilterLines,
    },
}

#[derive(Clone, Debug, PartialEq, Eq)]
pub struct Selected {
    /// `None` for all types.
    pub types: Option<Vec<u32>>,
    pub values: bool,
}

impl Selected {
    pub const ALL: Selected = Selected { types: None, values: true };
}

#[derive(Clone, Debug, PartialEq, Eq)]
pub enum FilterLines {
    And(Vec<FilterLines>),
    Or(Vec<FilterLines>),
    Not(Box<FilterLines>),
    Equality(u32, Vec<u8>),
    AtLeast(u32, Vec<u8>),
    AtMost(u32, Vec<u8>),
    Present(u32),
    /// Pieces as place (0 initial, 1 any, 2 final) and bytes.
    Substrings(u32, Vec<(u32, Vec<u8>)>),
}

impl FilterLines {
    /// Lines of K 20 to 28.
    pub fn lines(&self) -> usize {
        match self {
            FilterLines::And(parts) | FilterLines::Or(parts) => {
                1 + parts.iter().map(FilterLines::lines).sum::<usize>()
            }
            FilterLines::Not(part) => 1 + part.lines(),
            FilterLines::Substrings(_, pieces) => 1 + pieces.len(),
            _ => 1,
        }
    }
}

impl Sheet {
    pub fn filter(&mut self, filter: &FilterLines) -> &mut Self {
        match filter {
            FilterLines::And(parts) | FilterLines::Or(parts) => {
                let kind = if matches!(filter, FilterLines::And(_)) { 20 } else { 21 };
                self.line(kind, parts.len() as u32, 0, 0, &[]);
                for part in parts {
                    self.filter(part);
                }
                self
            }
            FilterLines::Not(part) => self.line(22, 0, 0, 0, &[]).filter(part),
            FilterLines::Equality(kind, value) => self.line(23, *kind, 0, 0, value),
            FilterLines::AtLeast(kind, value) => self.line(24, *kind, 0, 0, value),
            FilterLines::AtMost(kind, value) => self.line(25, *kind, 0, 0, value),
            FilterLines::Present(kind) => self.line(26, *kind, 0, 0, &[]),
            FilterLines::Substrings(kind, pieces) => {
                self.line(27, *kind, pieces.len() as u32, 0, &[]);
                for (place, bytes) in pieces {
                    self.line(28, *place, 0, 0, bytes);
                }
                self
            }
        }
    }

    fn selected(&mut self, selected: &Selected) {
        let types = selected.types.as_deref();
        let count = types.unwrap_or_default().len() as u32;
        self.line(12, types.is_some().into(), count, selected.values.into(), &[]);
        for &kind in types.unwrap_or_default() {
            self.line(13, kind, 0, 0, &[]);
        }
    }
}

impl RequestSheet {
    pub fn to_bytes(&self, form: Form) -> Vec<u8> {
        let mut sheet = Sheet::new(form);
        sheet.line(10, self.level, self.requester.len() as u32, self.edition, &[]);
        sheet.name(&self.requester);
        let (number, limit) = match &self.operation {
            OperationLines::Read(_) => (1, 0),
            OperationLines::Compare(..) => (2, 0),
            OperationLines::List { limit } => (3, *limit),
            OperationLines::Search { limit, .. } => (4, *limit),
        };
        sheet.line(11, number, self.name.len() as u32, limit, &[]);
        sheet.name(&self.name);
        match &self.operation {
            OperationLines::Read(selected) => sheet.selected(selected),
            OperationLines::Compare(kind, value) => {
                sheet.line(14, *kind, 0, 0, value);
            }
            OperationLines::List { .. } => {}
            OperationLines::Search { selected, order, subset, filter, .. } => {
                sheet.selected(selected);
                if let Some((kind, direction)) = order {
                    sheet.line(16, *kind, *direction, 0, &[]);
                }
                sheet.line(15, *subset, 0, 0, &[]).filter(filter);
            }
        }
        sheet.bytes
    }
}
