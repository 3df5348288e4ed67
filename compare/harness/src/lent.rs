//! Everything that a call is lent, what it is asked and what it says; and the guarded stretches between which each array stands.

use spoonferret::raw::Used;
use spoonferret::Halfedge;

/// The numbers of a half-edge row: start, end, pair and prop.
pub const ROW: usize = Halfedge::NUMBERS;

/// A half-edge row.
pub type Row = [i32; ROW];

/// The five arrays, the counts, and whatever buffers an entry takes.
#[derive(Clone, Debug)]
pub struct Lent {
    pub used: Used,
    pub halfedges: Vec<i32>,
    pub positions: Vec<u64>,
    pub normals: Vec<u64>,
    pub references: Vec<i32>,
    pub properties: Vec<u64>,
    pub spare_halfedges: Vec<i32>,
    pub spare_positions: Vec<u64>,
    pub work_bytes: Vec<u8>,
    pub work_words: Vec<u32>,
    pub work_longs: Vec<u64>,
    pub list: Vec<u32>,
}

impl Default for Lent {
    fn default() -> Self {
        Lent {
            used: Used { halfedges: 0, vertices: 0, normals: 0, references: 0, properties: 0, num_prop: 0 },
            halfedges: vec![],
            positions: vec![],
            normals: vec![],
            references: vec![],
            properties: vec![],
            spare_halfedges: vec![],
            spare_positions: vec![],
            work_bytes: vec![],
            work_words: vec![],
            work_longs: vec![],
            list: vec![],
        }
    }
}

pub fn counts(u: &Used) -> [usize; 6] {
    [u.halfedges, u.vertices, u.normals, u.references, u.properties, u.num_prop]
}

impl Lent {
    /// Half-edge row h.
    pub fn row(&self, h: usize) -> &Row {
        self.halfedges[ROW * h..][..ROW].try_into().expect("a row")
    }

    pub fn row_mut(&mut self, h: usize) -> &mut Row {
        (&mut self.halfedges[ROW * h..][..ROW]).try_into().expect("a row")
    }

    /// Lends a half-edge row more.
    pub fn push(&mut self, row: Row) {
        self.halfedges.extend(row);
    }

    /// The half-edge rows that are lent, in use or free.
    pub fn rows(&self) -> impl Iterator<Item = &Row> {
        self.halfedges.chunks_exact(ROW).map(|row| row.try_into().expect("a row"))
    }

    pub fn rows_lent(&self) -> usize {
        self.halfedges.len() / ROW
    }

    /// Where two differ, if they do: bit for bit, everything.
    pub fn differs(&self, other: &Lent) -> Option<String> {
        fn first<T: PartialEq + std::fmt::Debug>(name: &str, a: &[T], b: &[T]) -> Option<String> {
            if a == b {
                return None;
            }
            let i = a.iter().zip(b).position(|(x, y)| x != y).unwrap_or(a.len().min(b.len()));
            Some(format!("{name}[{i}]: {:?}, owed {:?}", a.get(i), b.get(i)))
        }
        first("counts", &counts(&self.used), &counts(&other.used))
            .or_else(|| first("halfedges", &self.halfedges, &other.halfedges))
            .or_else(|| first("positions", &self.positions, &other.positions))
            .or_else(|| first("normals", &self.normals, &other.normals))
            .or_else(|| first("references", &self.references, &other.references))
            .or_else(|| first("properties", &self.properties, &other.properties))
            .or_else(|| first("spare half-edges", &self.spare_halfedges, &other.spare_halfedges))
            .or_else(|| first("spare positions", &self.spare_positions, &other.spare_positions))
            .or_else(|| first("work buffer", &self.work_bytes, &other.work_bytes))
            .or_else(|| first("work buffer", &self.work_words, &other.work_words))
            .or_else(|| first("work buffer", &self.work_longs, &other.work_longs))
            .or_else(|| first("list", &self.list, &other.list))
    }

    /// How large an input is, to keep the smallest.
    pub fn size(&self) -> usize {
        self.halfedges.len()
            + self.positions.len()
            + self.normals.len()
            + self.references.len()
            + self.properties.len()
            + counts(&self.used).iter().map(|&c| c.min(1000)).sum::<usize>()
    }
}

/// What a caller asks beside the net: numbers, floats as bits, a choice.
#[derive(Clone, Debug, Default)]
pub struct Asked {
    pub numbers: Vec<i32>,
    pub floats: Vec<u64>,
    pub choice: bool,
}

impl Asked {
    pub fn nothing() -> Vec<Asked> {
        vec![Asked::default()]
    }

    pub fn numbers(numbers: &[i32]) -> Asked {
        Asked { numbers: numbers.to_vec(), ..Asked::default() }
    }
}

/// Document 01's number and the values that come with it, each as 64 bits. A value that is not named is 0, as the header promises of
/// every field that does not come with an answer.
#[derive(Clone, Debug)]
pub struct Said {
    pub number: u32,
    pub values: Vec<u64>,
}

impl PartialEq for Said {
    fn eq(&self, other: &Said) -> bool {
        let value = |said: &Said, i: usize| said.values.get(i).copied().unwrap_or(0);
        self.number == other.number && (0..self.values.len().max(other.values.len())).all(|i| value(self, i) == value(other, i))
    }
}

impl Said {
    pub fn done() -> Said {
        Said { number: 0, values: vec![] }
    }

    pub fn refused(number: u32) -> Said {
        Said { number, values: vec![] }
    }

    pub fn with(number: u32, values: &[u64]) -> Said {
        Said { number, values: values.to_vec() }
    }
}

pub fn signed(z: i32) -> u64 {
    z as i64 as u64
}

/// A lent array between two stretches that no call may write.
pub struct Guarded<T> {
    all: Vec<T>,
    length: usize,
}

const GUARD: usize = 64;

pub trait Pattern: Copy + PartialEq {
    const PATTERN: Self;
}

impl Pattern for u8 {
    const PATTERN: u8 = 0xA7;
}

impl Pattern for i32 {
    const PATTERN: i32 = -0x5A5A_1234;
}

impl Pattern for u32 {
    const PATTERN: u32 = 0xDEAD_5A5A;
}

impl Pattern for u64 {
    const PATTERN: u64 = 0xDEAD_5A5A_DEAD_1234;
}

impl<T: Pattern> Guarded<T> {
    pub fn new(lent: &[T]) -> Self {
        let mut all = Vec::with_capacity(lent.len() + 2 * GUARD);
        all.resize(GUARD, T::PATTERN);
        all.extend_from_slice(lent);
        all.resize(lent.len() + 2 * GUARD, T::PATTERN);
        Guarded { all, length: lent.len() }
    }

    pub fn at(&mut self) -> *mut T {
        self.all[GUARD..].as_mut_ptr()
    }

    pub fn length(&self) -> usize {
        self.length
    }

    /// What the call left, written back; an error if it wrote outside.
    pub fn back(self, name: &str, lent: &mut [T]) -> Result<(), String> {
        let (before, rest) = self.all.split_at(GUARD);
        let (middle, after) = rest.split_at(self.length);
        lent.copy_from_slice(middle);
        if before.iter().chain(after).any(|&x| x != T::PATTERN) {
            return Err(format!("{name}: written outside what was lent"));
        }
        Ok(())
    }
}

/// The net's arrays between guards.
pub struct GuardedNet {
    pub used: Used,
    pub halfedges: Guarded<i32>,
    pub positions: Guarded<u64>,
    pub normals: Guarded<u64>,
    pub references: Guarded<i32>,
    pub properties: Guarded<u64>,
}

impl GuardedNet {
    pub fn of(lent: &Lent) -> Self {
        GuardedNet {
            used: lent.used,
            halfedges: Guarded::new(&lent.halfedges),
            positions: Guarded::new(&lent.positions),
            normals: Guarded::new(&lent.normals),
            references: Guarded::new(&lent.references),
            properties: Guarded::new(&lent.properties),
        }
    }

    pub fn back(self, lent: &mut Lent) -> Result<(), String> {
        self.halfedges.back("halfedges", &mut lent.halfedges)?;
        self.positions.back("positions", &mut lent.positions)?;
        self.normals.back("normals", &mut lent.normals)?;
        self.references.back("references", &mut lent.references)?;
        self.properties.back("properties", &mut lent.properties)
    }
}
