//! The places of components among their siblings: mostly in another order than
//! the rows, side by side or with gaps, small and large.

use crate::draft::Draft;

/// The largest number of a column.
const LARGEST: usize = 999_999;

impl Draft {
    /// Gives every component its place. In one sheet of six all children stand in the order of their rows.
    pub fn place_components(&mut self) {
        let by_row = self.random.chance(17);
        for owner in 0..self.sheet.components.len() as u32 {
            self.place_children(owner, by_row);
        }
        let root = self.place_of_the_root();
        self.set_place(0, root);
    }

    /// Gives the children of a component places of their own.
    pub fn place_children(&mut self, owner: u32, by_row: bool) {
        let mut children = self.sheet.children(owner);
        children.sort_unstable();
        if by_row && self.random.chance(50) {
            for child in children {
                self.set_place(child, child);
            }
            return;
        }
        if !by_row && self.random.chance(90) {
            self.disorder(&mut children);
        }
        let places = self.ascending(children.len());
        for (child, place) in children.into_iter().zip(places) {
            self.set_place(child, place as u32);
        }
    }

    /// Another order, unless there is only one.
    fn disorder(&mut self, children: &mut [u32]) {
        self.random.shuffle(children);
        if children.is_sorted() {
            children.reverse();
        }
    }

    /// So many different places, the smallest first.
    fn ascending(&mut self, count: usize) -> Vec<usize> {
        match self.random.below(10) {
            0..=3 => (0..count).collect(),
            4..=5 => (1..=count).map(|number| 10 * number).collect(),
            6..=7 => {
                let mut place = self.random.below(4);
                let next = |_| {
                    place += self.random.range(1, 9);
                    place
                };
                (0..count).map(next).collect()
            }
            _ => {
                // As many parts of the whole range as there are places.
                let part = (LARGEST + 1) / count.max(1);
                let mut places: Vec<usize> = (0..count)
                    .map(|number| number * part + self.random.below(part))
                    .collect();
                if let Some(last) = places.last_mut()
                    && self.random.chance(30)
                {
                    *last = LARGEST;
                }
                places
            }
        }
    }

    /// The root has no siblings: any number, also one that a child of it has.
    fn place_of_the_root(&mut self) -> u32 {
        let children = self.sheet.children(0);
        match self.random.below(4) {
            0 => 0,
            1 if !children.is_empty() => {
                let child = self.random.pick(&children);
                self.place(child)
            }
            2 => LARGEST as u32,
            _ => self.random.below(LARGEST + 1) as u32,
        }
    }
}
