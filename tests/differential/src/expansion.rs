//! The expansion of a feature group: `expand_feature_group` against the original's, and its visits against those of the
//! instrumented copy.

use oracle::MOST_VISITS;
use oracle::letters::{component_type, group_type, package};
use oracle::model::{self, FeatureNames, Renames};
use oracle::sheet::Sheet;
use oracle::visits;
use spar_hir_def::feature_group::{ExpandedFeature, expand_feature_group};
use spar_hir_def::name::Name;

use crate::lent::Lent;
use crate::library;
use crate::tables::{MISSING, Tables};

const FEATURE_NUMBERS: usize = 14;

/// At most so many groups of a sheet are asked for.
const MOST_ASKED: usize = 24;

/// How often what was met, over all sheets.
#[derive(Default)]
pub struct Met {
    pub expansions: usize,
    pub features: usize,
    pub visits: u64,
    pub refused_11: usize,
    pub refused_13: usize,
}

/// Compares the two on groups of a sheet: each name of a package asks for each name of a group type, of the first component type
/// and for one name more, both with the inverse flag and without.
pub fn compare(sheet: &Sheet, renames: Renames, met: &mut Met) -> Result<(), String> {
    let tables = Tables::of(sheet);
    let scope = model::scope(sheet, FeatureNames::OfTheSheet, renames);
    let packages = sheet.packages.iter().filter_map(|row| row[package::NAME]);
    let asked: Vec<(u32, u32)> = packages
        .flat_map(|package| groups(sheet).into_iter().map(move |group| (package, group)))
        .take(MOST_ASKED)
        .collect();
    for (package, group) in asked {
        let (from, name) = (name(sheet, package), name(sheet, group));
        let (count, _) = visits::count(&scope, &from, &name, MOST_VISITS);
        for inverse in [false, true] {
            met.expansions += 1;
            if count > MOST_VISITS {
                met.refused_13 += 1;
                refused(&tables, 64 * FEATURE_NUMBERS, (package, group, inverse), 13)?;
                continue;
            }
            let expected = expand_feature_group(&scope, &from, &name, inverse);
            met.features += expected.len();
            met.visits += count;
            let exact = expected.len() * FEATURE_NUMBERS;
            for length in [exact, exact + FEATURE_NUMBERS - 1, exact + 1000] {
                listed(
                    sheet,
                    &tables,
                    length,
                    (package, group, inverse),
                    &expected,
                    count,
                )?;
            }
            if exact > 0 {
                met.refused_11 += 2;
                refused(&tables, exact - 1, (package, group, inverse), 11)?;
                refused(&tables, 0, (package, group, inverse), 11)?;
            }
        }
    }
    Ok(())
}

/// The name numbers that are asked for.
fn groups(sheet: &Sheet) -> Vec<u32> {
    let types = sheet.types.iter().map(|row| row[component_type::NAME]);
    let groups = sheet.group_types.iter().map(|row| row[group_type::NAME]);
    let names = groups.chain(types.take(1)).flatten();
    names.chain([0]).collect()
}

fn name(sheet: &Sheet, number: u32) -> Name {
    model::name(sheet, Some(number))
}

type Asked = (u32, u32, bool);

fn run(
    tables: &Tables,
    out: &mut Lent<u32>,
    (from, group, inverse): Asked,
) -> Result<[u64; 3], String> {
    let before = tables.clone();
    let told = library::expand_feature_group(tables, out.lend(), from, group, inverse);
    if *tables == before {
        Ok(told)
    } else {
        Err("it changed an input".to_string())
    }
}

fn refused(tables: &Tables, length: usize, asked: Asked, number: u64) -> Result<(), String> {
    let mut out = Lent::of_length(length);
    let told = run(tables, &mut out, asked)?;
    if told != [number, 0, b'-'.into()] {
        return Err(format!(
            "refusal {number} of {asked:?} expected, it told {told:?}"
        ));
    }
    out.used(0).map(|_| ())
}

fn listed(
    sheet: &Sheet,
    tables: &Tables,
    length: usize,
    asked: Asked,
    expected: &[ExpandedFeature],
    visits: u64,
) -> Result<(), String> {
    let mut out = Lent::of_length(length);
    let told = run(tables, &mut out, asked)?;
    let counts = [0, expected.len() as u64, visits];
    if told != counts {
        return Err(format!(
            "{counts:?} of {asked:?} expected, it told {told:?}"
        ));
    }
    let written = out.used(expected.len() * FEATURE_NUMBERS)?;
    for (block, feature) in written.chunks(FEATURE_NUMBERS).zip(expected) {
        if feature_of(sheet, block)? != numbers_of(feature) {
            return Err(format!("a feature of {asked:?} differs"));
        }
    }
    Ok(())
}

/// A feature in words: name, kind, direction, prefix.
type Words = (String, u32, Option<u32>, Option<String>);

fn numbers_of(feature: &ExpandedFeature) -> Words {
    (
        feature.name.to_string(),
        feature.kind as u32,
        feature.direction.map(|direction| direction as u32),
        feature.group_prefix.as_ref().map(Name::to_string),
    )
}

fn feature_of(sheet: &Sheet, block: &[u32]) -> Result<Words, String> {
    let (prefix, unused) = block[4..].split_at(block[3] as usize);
    if unused.iter().any(|&left| left != 0) {
        return Err("an unused place of a prefix is not zero".to_string());
    }
    let names: Vec<&str> = prefix.iter().map(|&own| sheet.name(Some(own))).collect();
    Ok((
        sheet.name(Some(block[0])).to_string(),
        block[1],
        (block[2] != MISSING).then_some(block[2]),
        (!names.is_empty()).then(|| names.join(".")),
    ))
}
