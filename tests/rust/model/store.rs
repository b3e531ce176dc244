//! The counted store: cells, the free list, their words, and the test of 11.

pub const CELL_SLOTS: usize = 16;
pub const CELLS_MAX: usize = 256;

#[derive(Clone, PartialEq, Eq, Debug, Default)]
pub struct Cell {
    pub count: u32,
    pub length: u32,
    pub depth: u32,
    pub next: u32,
    pub slots: [i64; CELL_SLOTS],
}

#[derive(Clone, PartialEq, Eq, Debug)]
pub struct Store {
    pub totals: i64,
    pub first: u32,
    pub cells: Vec<Cell>,
}

/// The number of cells that two arrays of these lengths are for.
pub fn cells_of(slots: &[i64], heads: &[u32]) -> Option<usize> {
    (1..=CELLS_MAX).find(|cells| slots.len() == 1 + CELL_SLOTS * cells && heads.len() == 1 + 4 * cells)
}

impl Store {
    pub fn opened(cells: usize, depth: usize) -> Store {
        let mut store = Store { totals: 0, first: 0, cells: vec![Cell::default(); cells] };
        store.chain_upwards();
        if depth > 0 {
            store.acquire(depth as u32 - 1, &[]);
        }
        store
    }

    pub fn from_words(slots: &[i64], heads: &[u32]) -> Option<Store> {
        let cells = cells_of(slots, heads)?;
        let cell = |c: usize| Cell {
            count: heads[1 + 4 * c],
            length: heads[2 + 4 * c],
            depth: heads[3 + 4 * c],
            next: heads[4 + 4 * c],
            slots: slots[1 + 16 * c..17 + 16 * c].try_into().unwrap(),
        };
        Some(Store { totals: slots[0], first: heads[0], cells: (0..cells).map(cell).collect() })
    }

    pub fn slot_words(&self) -> Vec<i64> {
        std::iter::once(self.totals).chain(self.cells.iter().flat_map(|cell| cell.slots)).collect()
    }

    pub fn head_words(&self) -> Vec<u32> {
        let words = |cell: &Cell| [cell.count, cell.length, cell.depth, cell.next];
        std::iter::once(self.first).chain(self.cells.iter().flat_map(words)).collect()
    }

    pub fn taken(&self) -> usize {
        self.cells.iter().filter(|cell| cell.count > 0).count()
    }

    pub fn free(&self) -> usize {
        self.cells.iter().filter(|cell| cell.count == 0).count()
    }

    /// Chains all cells of count 0, lowest first.
    pub fn chain_upwards(&mut self) {
        let mut next = self.cells.len() as u32;
        for (c, cell) in self.cells.iter_mut().enumerate().rev() {
            if cell.count == 0 {
                *cell = Cell { next, ..Cell::default() };
                next = c as u32;
            }
        }
        self.first = next;
    }

    // ---- Operations ----

    /// Takes the first free cell, if there is one.
    pub fn acquire(&mut self, depth: u32, elements: &[i64]) -> Option<usize> {
        let taken = self.first as usize;
        let cell = self.cells.get_mut(taken)?;
        self.first = cell.next;
        *cell = Cell { count: 1, depth, ..Cell::default() };
        elements.iter().for_each(|element| self.append(taken, *element));
        Some(taken)
    }

    pub fn append(&mut self, c: usize, element: i64) {
        let cell = &mut self.cells[c];
        cell.slots[cell.length as usize] = element;
        cell.length += 1;
    }

    pub fn overwrite(&mut self, c: usize, i: usize, element: i64) {
        self.cells[c].slots[i] = element;
    }

    pub fn elements(&self, c: usize) -> &[i64] {
        &self.cells[c].slots[..self.cells[c].length as usize]
    }

    pub fn retain(&mut self, c: usize) {
        assert!(self.cells[c].count > 0, "a free cell is retained");
        self.cells[c].count += 1;
    }

    pub fn release(&mut self, c: usize) {
        assert!(self.cells[c].count > 0, "a free cell is released");
        self.cells[c].count -= 1;
        if self.cells[c].count > 0 {
            return;
        }
        let freed = std::mem::replace(&mut self.cells[c], Cell { next: self.first, ..Cell::default() });
        self.first = c as u32;
        if freed.depth > 0 {
            for element in &freed.slots[..freed.length as usize] {
                self.release(*element as usize);
            }
        }
    }

    // ---- The test of 11 ----

    /// Sound for totals of this depth.
    pub fn is_sound(&self, depth: usize) -> bool {
        self.chain_holds_the_free() && self.shapes_hold() && self.names_hold(depth)
    }

    fn chain_holds_the_free(&self) -> bool {
        let mut seen = vec![false; self.cells.len()];
        let mut at = self.first as usize;
        while at != self.cells.len() {
            match self.cells.get(at) {
                Some(cell) if cell.count == 0 && !seen[at] => {
                    seen[at] = true;
                    at = cell.next as usize;
                }
                _ => return false,
            }
        }
        self.cells.iter().zip(seen).all(|(cell, seen)| seen == (cell.count == 0))
    }

    fn shapes_hold(&self) -> bool {
        self.cells.iter().all(|cell| {
            let clear = Cell { next: cell.next, ..Cell::default() };
            let shaped = cell.length <= 16 && cell.depth <= 3 && cell.next == 0;
            if cell.count == 0 {
                *cell == clear
            } else {
                shaped && cell.slots[cell.length as usize..].iter().all(|slot| *slot == 0)
            }
        })
    }

    /// Each place names a cell in use of the right depth, and the counts are the places.
    fn names_hold(&self, depth: usize) -> bool {
        let mut places = vec![0u32; self.cells.len()];
        let mut named = Vec::new();
        if depth > 0 {
            named.push((self.totals, depth as u32 - 1));
        }
        for cell in self.cells.iter().filter(|cell| cell.count > 0 && cell.depth > 0) {
            named.extend(cell.slots[..cell.length as usize].iter().map(|slot| (*slot, cell.depth - 1)));
        }
        for (word, element_depth) in named {
            let Some(c) = usize::try_from(word).ok().filter(|c| *c < self.cells.len()) else {
                return false;
            };
            if self.cells[c].count == 0 || self.cells[c].depth != element_depth {
                return false;
            }
            places[c] += 1;
        }
        self.cells.iter().zip(places).all(|(cell, places)| cell.count == places)
    }
}
