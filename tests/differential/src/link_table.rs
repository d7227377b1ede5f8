//! The link table, the first output of every listing: for each component its first child and its next sibling, in the order of their
//! places. It is held to the lists of children that the original is handed.

use oracle::model;
use oracle::sheet::Sheet;

use crate::lent::Lent;
use crate::tables::MISSING;

/// The numbers of a row: the first child, the next sibling.
pub const LINK_NUMBERS: usize = 2;

/// The refusal of a link table with fewer whole rows than there are components. A sheet cannot earn it, since `conlist` lends as many
/// rows of links as of C.
pub const TOO_FEW_LINKS: u64 = 22;

/// The link table that is due for a model.
pub struct LinkTable {
    numbers: Vec<u32>,
}

impl LinkTable {
    pub fn of(sheet: &Sheet) -> LinkTable {
        let instance = model::instance(sheet);
        let mut rows = vec![[MISSING; LINK_NUMBERS]; instance.components.len()];
        for (owner, component) in instance.components.iter() {
            let children: Vec<u32> = component
                .children
                .iter()
                .map(|&own| model::row(own))
                .collect();
            if let Some(&first) = children.first() {
                rows[model::row(owner) as usize][0] = first;
            }
            for pair in children.windows(2) {
                rows[pair[0] as usize][1] = pair[1];
            }
        }
        LinkTable {
            numbers: rows.concat(),
        }
    }

    /// How many numbers it takes: whole rows, one for each component.
    pub fn length(&self) -> usize {
        self.numbers.len()
    }

    /// The output holds it, and zeros behind it.
    pub fn fills(&self, output: &Lent<u32>) -> Result<(), String> {
        if output.used(self.length())? == self.numbers {
            Ok(())
        } else {
            Err("the link table differs".to_string())
        }
    }

    /// The output holds what is due where a call told this: the table, or zeros alone where it refused.
    pub fn is_left(&self, output: &Lent<u32>, told: &[u64]) -> Result<(), String> {
        match told[0] {
            0 => self.fills(output),
            _ => output.used(0).map(|_| ()),
        }
    }
}
