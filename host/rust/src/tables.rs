//! Schemas and declared names as the tables that a walk takes.
//!
//! Nothing is refused here. A schema or a list of names beyond the sizes is turned into a table that is beyond them too, and the walk
//! refuses it in its own order; what lies further beyond is left out, so that no input makes a table large.

use crate::lent::{self, Tables, NONE, SCHEMA_NAMES, SCHEMA_ROWS};
use crate::schema::{level_in_table, ArrayFieldSchema};
use std::sync::OnceLock;

const MOST_LEVELS: usize = 64;
const MOST_ROWS: usize = 512;
const MOST_DECLARED: usize = 1024;
const LONGEST_NAME: usize = 64;

const ROW_WORDS: usize = 5;
const ARRAY: u32 = 0;
const NAME: u32 = 1;

/// The tables of one struct walk.
pub(crate) struct OwnTables {
    schema: Levels,
    declared: Declared,
}

impl OwnTables {
    pub(crate) fn of(schema: Option<&ArrayFieldSchema>, declared: &[Option<&str>]) -> Self {
        Self {
            schema: Levels::of(schema),
            declared: Declared::of(declared),
        }
    }

    pub(crate) fn lent(&self) -> Tables<'_> {
        Tables {
            declared: &self.declared.rows,
            declared_names: &self.declared.pool,
            ..self.schema.lent()
        }
    }
}

enum Levels {
    None,
    /// A level of the proved table.
    Proved(u32),
    /// A caller's own schema, whose root is level 0.
    Linked(Table),
}

impl Levels {
    fn of(schema: Option<&ArrayFieldSchema>) -> Self {
        match schema {
            None => Self::None,
            Some(root) => level_in_table(root).map_or_else(|| Self::Linked(Table::linked(root)), Self::Proved),
        }
    }

    fn lent(&self) -> Tables<'_> {
        match self {
            Self::None => Tables::NONE,
            Self::Proved(root) => Table::proved().lent(*root),
            Self::Linked(table) => table.lent(0),
        }
    }
}

/// A schema as a walk takes it.
struct Table {
    rows: Vec<u32>,
    names: Vec<u8>,
    levels: u32,
}

impl Table {
    fn lent(&self, root: u32) -> Tables<'_> {
        Tables {
            rows: &self.rows,
            levels: self.levels,
            root,
            names: &self.names,
            ..Tables::NONE
        }
    }

    /// The twelve levels, as the library has them.
    fn proved() -> &'static Self {
        static TWELVE: OnceLock<Table> = OnceLock::new();
        TWELVE.get_or_init(|| {
            let (mut rows, mut names) = (vec![0; SCHEMA_ROWS], vec![0; SCHEMA_NAMES]);
            let filled = lent::schema(&mut rows, &mut names).expect("the buffers have the sizes that the call names");
            Self {
                rows,
                names,
                levels: filled.levels,
            }
        })
    }

    /// The levels that can be reached from `root`, numbered as they are met; a level is known by its address.
    fn linked(root: &ArrayFieldSchema) -> Self {
        let mut levels = vec![root];
        let (mut rows, mut names) = (Vec::new(), Vec::new());
        let mut next = 0;
        while next < levels.len() && levels.len() <= MOST_LEVELS && rows.len() <= MOST_ROWS * ROW_WORDS {
            let level = levels[next];
            for &(handle, child) in level.sub_arrays.iter().take(MOST_ROWS + 1) {
                rows.extend([next as u32, ARRAY, handle, number_of(child, &mut levels), 0]);
            }
            for &(handle, name) in level.field_names.iter().take(MOST_ROWS + 1) {
                let [start, length] = put_name(name, &mut names);
                rows.extend([next as u32, NAME, handle, start, length]);
            }
            next += 1;
        }
        Self {
            rows,
            names,
            levels: levels.len() as u32,
        }
    }
}

/// The number of a level; a new one is added.
fn number_of<'a>(level: &'a ArrayFieldSchema, levels: &mut Vec<&'a ArrayFieldSchema>) -> u32 {
    let known = levels.iter().position(|&l| std::ptr::eq(l, level));
    let number = known.unwrap_or_else(|| {
        levels.push(level);
        levels.len() - 1
    });
    number as u32
}

/// Declared names as a walk takes them.
struct Declared {
    rows: Vec<u32>,
    pool: Vec<u8>,
}

impl Declared {
    fn of(names: &[Option<&str>]) -> Self {
        let names = &names[..names.len().min(MOST_DECLARED + 1)];
        let mut rows = Vec::with_capacity(2 * names.len());
        let mut pool = Vec::with_capacity(names.iter().flatten().map(|name| kept(name).len()).sum());
        for name in names {
            rows.extend(name.map_or([NONE, 0], |name| put_name(name, &mut pool)));
        }
        Self { rows, pool }
    }
}

/// Start and length of a name that is put into a pool.
fn put_name(name: &str, pool: &mut Vec<u8>) -> [u32; 2] {
    let bytes = kept(name);
    let start = pool.len() as u32;
    pool.extend_from_slice(bytes);
    [start, bytes.len() as u32]
}

/// What is put of a name: all of it, or of a name that is too long one byte too many.
fn kept(name: &str) -> &[u8] {
    &name.as_bytes()[..name.len().min(LONGEST_NAME + 1)]
}
