//! What the programs are to print for an accepted sheet, from the original Rust.
//!
//! Of `conlist` the rows, their order, the messages and path names are the original's own:
//! `compute_semantic_connections`, then `expand_feature_group_connections`, on
//! one instance. The four numbers of a diagnostic and the refusals 11 to 15 are
//! not in the original; they are added here as document 01 says. Of `modes` and
//! `mode` the selections are the original's `compute_soms`.
//!
//! The original ends a chain after 20 steps. A copy of its tracing without that
//! limit, `lifted`, can take its place.

pub mod endpoint;
pub mod group;
pub mod letters;
#[rustfmt::skip]
pub mod lifted;
pub mod listing;
pub mod model;
pub mod modes;
pub mod places;
pub mod resolve;
pub mod sheet;
pub mod stream;
pub mod traced;
#[rustfmt::skip]
pub mod visits;

use listing::Listing;
use model::Renames;
use sheet::Sheet;
use spar_hir_def::instance::SystemInstance;

/// How to run the original.
#[derive(Clone, Copy, Debug, Default)]
pub struct Options {
    /// By default the original's own way, through the text `Pkg::Type`.
    pub renames: Renames,
    /// No sizes of outputs, so no refusals 11 to 15.
    pub unlimited: bool,
    /// No limit on the steps of a chain: the copy of the original's tracing.
    pub lifted: bool,
}

/// Why there is no text.
#[derive(Clone, Copy, Debug, PartialEq, Eq)]
pub enum NoAnswer {
    /// The sheet is refused before any listing.
    NotAccepted,
    /// The original would not come to an end, or not soon, and without sizes of
    /// outputs there is no refusal to give instead.
    NotEnding,
}

/// The most visits of one endpoint.
pub const MOST_VISITS: u64 = 65_536;

/// More rows than this are not collected.
const MOST_ROWS: u64 = 300_000;

/// More comparisons of features than this are not waited for.
const MOST_COMPARISONS: u64 = 20_000_000;

/// The text that `conlist` is to print for a sheet.
pub fn conlist(sheet: &[u8], options: Options) -> Result<String, NoAnswer> {
    let sheet = Sheet::accepted(sheet).ok_or(NoAnswer::NotAccepted)?;
    match text(&sheet, options) {
        Ok(text) => Ok(text),
        Err(_) if options.unlimited => Err(NoAnswer::NotEnding),
        Err(refusal) => Ok(listing::refusal_line(refusal)),
    }
}

/// The text of an accepted sheet, or the refusal in its place. Without limits a
/// refusal is one for a model on which the original would not end.
fn text(sheet: &Sheet, options: Options) -> Result<String, u32> {
    let limited = |refusal: Option<u32>| match refusal {
        Some(refusal) if !options.unlimited => Err(refusal),
        _ => Ok(()),
    };
    let mut instance = model::instance(sheet);
    let traced = traced_listing(sheet, options, &mut instance)?;
    limited(listing::traced_refusal(&traced))?;

    group_listing_ends(sheet, options.renames)?;
    let group = group::run(sheet, options.renames, &mut instance);
    limited(group_refusal(&group))?;

    let text = listing::text(&traced, &group);
    limited((text.len() > listing::TEXT_BYTES).then_some(15))?;
    Ok(text)
}

/// The traced listing, or the refusal that is owed where it cannot be waited for.
fn traced_listing(
    sheet: &Sheet,
    options: Options,
    instance: &mut SystemInstance,
) -> Result<Listing, u32> {
    let (steps, run): (u64, fn(&Sheet, &mut SystemInstance) -> Listing) = match options.lifted {
        true => (traced::NO_LIMIT, traced::run_lifted),
        false => (traced::STEPS, traced::run),
    };
    match traced::row_count(sheet, steps) > MOST_ROWS {
        true => Err(11),
        false => Ok(run(sheet, instance)),
    }
}

fn group_refusal(group: &Listing) -> Option<u32> {
    listing::group_refusal(
        group.rows.len(),
        listing::composed_bytes(group),
        group.diagnostics.len(),
    )
}

/// Whether the original's group listing can be waited for; if not, the refusal
/// that is owed in its place.
fn group_listing_ends(sheet: &Sheet, renames: Renames) -> Result<(), u32> {
    let counts = endpoint::counts(sheet, renames, MOST_VISITS);
    if counts.iter().any(|count| count.visits > MOST_VISITS) {
        return Err(13);
    }
    let mut pairs = counts.chunks(2);
    if pairs.all(|pair| pair[0].features * pair[1].features <= MOST_COMPARISONS) {
        return Ok(());
    }
    let size = group::size(sheet, renames);
    // Without a refusal the source is small, and the original ends after all.
    match listing::group_refusal(size.rows, size.composed_bytes, size.diagnostics) {
        Some(refusal) => Err(refusal),
        None => Ok(()),
    }
}
