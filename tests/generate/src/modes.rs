//! The modes of components: a few of some components, and as many as make
//! 10,000 selections exactly, a little more or less, or far more, so that the
//! list passes 10,000 at the last component with modes or before it, sometimes
//! right behind 10,000 exactly.

use oracle::letters::{Field, line_length};
use oracle::modes::JOINED_BYTES;
use oracle::sheet::{NAME_BYTES, NAME_ROWS, SHEET_BYTES, TABLE_ROWS};

use crate::draft::Draft;

/// A longer list of selections is cut.
const MOST_SELECTIONS: usize = 10_000;

/// The prime factors of that.
const FACTORS: [usize; 8] = [2, 2, 2, 2, 5, 5, 5, 5];

/// How many modes make a little less or a little more: 9,990, 9,996, 10,005 and 10,010 selections.
const ABOUT: &[&[usize]] = &[
    &[15, 18, 37],
    &[12, 17, 49],
    &[7, 12, 7, 17],
    &[15, 23, 29],
    &[7, 10, 11, 13],
];

/// Names that give the same when they are joined: `a` and `b_c`, `a_b` and `c`.
const JOINED_ALIKE: &[&str] = &["a", "b", "c", "a_b", "b_c", "a_b_c"];

const MODE_NAMES: &[&str] = &[
    "off", "on", "On", "idle", "run", "slow_run", "stand by", "_", "on_", "_off", "a", "a_b", "m.1",
];

/// At most so many components with modes where nothing else is wanted, and so many modes of each.
const COMPONENTS: usize = 10;
const MODES: usize = 8;

/// What a mode takes of the sheet, with a name of its own that is no longer than those here.
fn bytes_of_a_mode() -> usize {
    let longest = MODE_NAMES.iter().map(|name| name.len()).max();
    line_length(b'M') + "\n".len() + longest.unwrap_or(0) + "N \n".len()
}

impl Draft {
    /// Gives components modes, in one sheet of three or `always`, but none where there are some. There is room for what may fill the
    /// sheet up, so that a sheet is never too long for its modes.
    pub fn add_modes(&mut self, always: bool) {
        std::mem::swap(&mut self.random, &mut self.mode_random);
        if self.sheet.modes.is_empty() && (always || self.random.chance(35)) {
            let spare_features = TABLE_ROWS * (line_length(b'F') + "\n".len()) + "N spare\n".len();
            let used = self.sheet.bytes().len() + spare_features;
            let room = SHEET_BYTES.saturating_sub(used) / bytes_of_a_mode();
            let counts = self.mode_counts(room.min(TABLE_ROWS));
            self.add_so_many_modes(&counts);
        }
        std::mem::swap(&mut self.random, &mut self.mode_random);
    }

    /// How many modes the components with modes have, with so many rows of modes at most.
    fn mode_counts(&mut self, most: usize) -> Vec<usize> {
        let components = self.sheet.components.len();
        let mut counts = match self.random.below(100) {
            0..=6 => self.exactly_the_most(components),
            7..=12 => self.passing_behind_exactly_the_most(components),
            13..=16 => self.about_the_most(),
            17..=22 => self.passing_at_the_last(components.min(COMPONENTS)),
            23..=30 => self.passing_before_the_last(components),
            31..=34 => self.whole_table(components.min(2), most),
            _ => Vec::new(),
        };
        let fit =
            |counts: &[usize]| counts.len() <= components && counts.iter().sum::<usize>() <= most;
        if counts.is_empty() || !fit(&counts) {
            let wanted = self.random.range(1, components.min(COMPONENTS));
            counts = (0..wanted).map(|_| self.random.range(1, MODES)).collect();
            while !fit(&counts) {
                counts.pop();
            }
        }
        counts
    }

    /// The prime factors of 10,000 in as many heaps as there are components with modes. An empty heap is a component with one mode.
    fn exactly_the_most(&mut self, components: usize) -> Vec<usize> {
        for _ in 0..100 {
            let mut counts = vec![1; self.random.range(1, components.min(COMPONENTS))];
            for factor in FACTORS {
                let heap = self.random.below(counts.len());
                counts[heap] *= factor;
            }
            if counts.iter().sum::<usize>() <= TABLE_ROWS {
                return counts;
            }
        }
        Vec::new()
    }

    /// 10,000 selections exactly, more with the component behind these, and sometimes components with modes behind that.
    fn passing_behind_exactly_the_most(&mut self, components: usize) -> Vec<usize> {
        let behind = self.random.pick(&[1, 1, 2, 3]).min(components - 1);
        let mut counts = self.exactly_the_most(components - behind);
        if !counts.is_empty() {
            counts.push(self.random.range(2, 3));
            counts.extend((1..behind).map(|_| self.random.range(1, 3)));
        }
        counts
    }

    fn about_the_most(&mut self) -> Vec<usize> {
        let mut counts = self.random.pick(ABOUT).to_vec();
        self.random.shuffle(&mut counts);
        counts
    }

    /// With modes of so many components or fewer: no more than 10,000 selections without the last one, and more with it. Two
    /// components have too few rows for that.
    fn passing_at_the_last(&mut self, components: usize) -> Vec<usize> {
        if components < 3 {
            return Vec::new();
        }
        let count = self.random.range(3, components);
        let alike = (MOST_SELECTIONS as f64).powf(1.0 / count as f64) as usize;
        let (mut counts, mut selections) = (Vec::new(), 1);
        for _ in 1..count {
            let modes = self.random.range(alike - alike / 4, alike + alike / 3);
            let modes = modes.min(MOST_SELECTIONS / selections);
            selections *= modes;
            counts.push(modes);
        }
        let passing = MOST_SELECTIONS / selections + 1;
        counts.push(passing + self.random.pick(&[0, 0, 1, 2]));
        counts
    }

    /// The same, with components behind the one at which the list passes 10,000.
    fn passing_before_the_last(&mut self, components: usize) -> Vec<usize> {
        let behind = self.random.pick(&[1, 1, 2, 3]).min(components - 1);
        let front = (components - behind).min(COMPONENTS);
        let mut counts = self.passing_at_the_last(front);
        if !counts.is_empty() {
            counts.extend((0..behind).map(|_| self.random.range(1, 3)));
        }
        counts
    }

    /// As many modes as there is room for, of so many components or fewer.
    fn whole_table(&mut self, components: usize, most: usize) -> Vec<usize> {
        let mut counts = vec![0; self.random.range(1, components)];
        for _ in 0..most {
            let owner = self.random.below(counts.len());
            counts[owner] += 1;
        }
        counts
    }

    /// Gives so many modes each to some components, in the order of their rows. Mostly the modes of different components stand mixed.
    fn add_so_many_modes(&mut self, counts: &[usize]) {
        let mut owners: Vec<u32> = (0..self.sheet.components.len() as u32).collect();
        while owners.len() > counts.len() {
            let left_out = self.random.below(owners.len());
            owners.remove(left_out);
        }
        let mut names = match self.random.below(5) {
            0..=2 => JOINED_ALIKE.to_vec(),
            3 => MODE_NAMES.to_vec(),
            // Each has a name of its own.
            _ => Vec::new(),
        };
        for (owner, &count) in owners.into_iter().zip(counts) {
            self.random.shuffle(&mut names);
            for number in 0..count {
                let text = match names.is_empty() {
                    true => format!("m{}", self.sheet.modes.len()),
                    // The modes of a component have different names as long as there are some.
                    false => names[number % names.len()].to_string(),
                };
                let name = self.mode_name(&text);
                self.mode(name, owner);
            }
        }
        if self.random.chance(80) {
            self.random.shuffle(&mut self.sheet.modes);
        }
    }

    /// The number of a name, sometimes of one that something else has. Some rows of names stay free.
    fn mode_name(&mut self, text: &str) -> Field {
        let used = self.sheet.names.len();
        if used + 8 >= NAME_ROWS || self.random.chance(5) {
            return Some(self.random.below(used) as u32);
        }
        self.name(text)
    }

    /// A tree of components, for modes alone.
    pub fn modal_tree(&mut self) {
        let components = self.random.below(20);
        self.components(components);
    }

    /// Joined names of about 4,096 bytes: some selections have one byte more than others.
    pub fn joined_name_limit(&mut self) {
        let modal = self.random.range(65, 85);
        let bytes = JOINED_BYTES + self.random.range(0, 4) - 2;
        // Without the underscores.
        let letters = bytes - (modal - 1);
        let (shorter, longer) = (letters / modal, letters % modal);
        assert!(shorter < NAME_BYTES);
        let root = self.root();
        let (part, short, long) = (
            self.name("part"),
            self.name(&"w".repeat(shorter)),
            self.name(&"z".repeat(shorter + 1)),
        );
        for number in 0..modal {
            let owner = self.component(part, Some(root), None);
            let own = if number < longer { long } else { short };
            self.mode(own, owner);
            if self.sheet.modes.len() + modal - number < TABLE_ROWS && self.random.chance(10) {
                self.mode(long, owner);
            }
        }
    }
}
