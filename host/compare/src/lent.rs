//! A buffer as a call sees it: a lent part that held a pattern before, and cells behind it that nobody lent.

/// Cells behind the lent part, watched too.
const GUARD: usize = 8;

#[derive(Default)]
pub struct Lent<T> {
    cells: Vec<T>,
    lent: usize,
    pattern: T,
}

impl<T: Copy + PartialEq> Lent<T> {
    pub fn lend(&mut self, n: usize, pattern: T) {
        self.cells.clear();
        self.cells.resize(n + GUARD, pattern);
        self.lent = n;
        self.pattern = pattern;
    }

    pub fn cells(&mut self) -> &mut [T] {
        &mut self.cells[..self.lent]
    }

    /// `filled` stands at the front, and every cell behind it, lent or not, is as it was.
    pub fn holds(&self, filled: &[T]) -> bool {
        let (front, behind) = self.cells.split_at(filled.len().min(self.cells.len()));
        front == filled && behind.iter().all(|c| *c == self.pattern)
    }

    /// The first cells, to show.
    pub fn front(&self, n: usize) -> &[T] {
        &self.cells[..n.min(self.cells.len())]
    }
}

/// How much is lent of each buffer, given what each needs.
#[derive(Clone, Copy, PartialEq)]
pub enum Room {
    Full,
    Longer,
    /// One cell too few in the buffer of this number, the others longer.
    Short(usize),
}

impl Room {
    /// Full and longer, then one short in each buffer that needs something.
    pub fn all<const N: usize>(needs: [usize; N]) -> impl Iterator<Item = Room> {
        let short = (0..N).filter(move |i| needs[*i] > 0).map(Room::Short);
        [Room::Full, Room::Longer].into_iter().chain(short)
    }

    pub fn of<const N: usize>(self, needs: [usize; N]) -> [usize; N] {
        let mut n = needs;
        for (i, cells) in n.iter_mut().enumerate() {
            match self {
                Room::Full => {}
                Room::Longer => *cells += 3 + i,
                Room::Short(short) if short == i => *cells -= 1,
                Room::Short(_) => *cells += i,
            }
        }
        n
    }

    /// The pattern differs, so that a cell which happens to hold it can't hide that it wasn't written.
    pub fn pattern(self) -> u8 {
        if self == Room::Full { 0xee } else { 0x11 }
    }

    pub fn words(self) -> u32 {
        u32::from_le_bytes([self.pattern(); 4])
    }

    pub fn name<const N: usize>(self, buffers: [&str; N]) -> String {
        match self {
            Room::Full => "buffers lent exactly full".into(),
            Room::Longer => "buffers lent longer than needed".into(),
            Room::Short(i) => format!("{} lent one short", buffers[i]),
        }
    }
}
