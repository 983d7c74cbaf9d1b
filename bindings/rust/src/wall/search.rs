//! The search range of a wall file.

use super::{Error, Row};
use crate::reach::{self, BrokenInRow, Reach, Survey};
use crate::Settings;
use std::{error, fmt};

/// How far one broken tile of a wall without faults can reach.
#[derive(Clone, Debug, PartialEq, Eq)]
pub struct SearchRange {
    settings: Settings,
    gaps: Vec<u64>,
    largest: u64,
}

impl SearchRange {
    /// The largest reach over the wall: no pulse differs by more ticks, whichever one tile breaks.
    #[must_use]
    pub fn largest(&self) -> u64 {
        self.largest
    }

    /// B of each row, from row 0 to row R - 1.
    #[must_use]
    pub fn gaps(&self) -> &[u64] {
        &self.gaps
    }

    /// The reach of a broken tile in a later row of the wall. `None` where there is no such tile or
    /// no such later row.
    #[must_use]
    pub fn reach(&self, broken: Tile, later: u64) -> Option<Reach> {
        let Tile { row, column } = broken;
        let gap = *self.gaps.get(usize::try_from(row).ok()?)?;
        let broken = BrokenInRow {
            gap,
            row,
            later,
            column,
        };
        reach::reach_in_row(&self.settings, broken)
    }
}

/// A tile of a wall.
#[derive(Clone, Copy, Debug, PartialEq, Eq, Hash)]
pub struct Tile {
    /// Its row, 0 to R.
    pub row: u64,
    /// Its column, 0 to W - 1.
    pub column: usize,
}

/// Why a wall file has no search range.
#[derive(Debug)]
pub enum SearchError {
    /// The wall has a faulty tile; this is the first in the file.
    Faulty(Tile),
    /// The file is turned away, or could not be read.
    File(Error),
}

/// The rows of a file, surveyed as they become known.
#[derive(Debug, Default)]
pub(super) struct Search {
    survey: Option<Survey>,
    gaps: Vec<u64>,
    faulty: Option<Tile>,
}

impl Search {
    /// Takes a row that is known, row 0 first. The last has no marks, and the survey leaves it out.
    pub(super) fn row(&mut self, row: &Row) {
        let survey = self
            .survey
            .get_or_insert_with(|| Survey::new(row.settings()));
        if self.faulty.is_some() {
            return;
        }
        if let Some(column) = row.first_faulty() {
            self.faulty = Some(Tile {
                row: row.number(),
                column,
            });
            return;
        }
        let gap = survey.row(row.times()).expect("a file's rows are W long");
        self.gaps.extend(gap);
    }

    /// The first faulty tile.
    pub(super) fn faulty(&self) -> Option<SearchError> {
        self.faulty.map(SearchError::Faulty)
    }

    /// The range, once the file has ended.
    pub(super) fn range(self, settings: Settings) -> Option<SearchRange> {
        Some(SearchRange {
            settings,
            largest: self.survey?.largest()?,
            gaps: self.gaps,
        })
    }
}

impl From<Error> for SearchError {
    fn from(error: Error) -> SearchError {
        SearchError::File(error)
    }
}

impl fmt::Display for SearchError {
    fn fmt(&self, f: &mut fmt::Formatter<'_>) -> fmt::Result {
        match self {
            SearchError::Faulty(Tile { row, column }) => write!(f, "faulty {row} {column}"),
            SearchError::File(error) => error.fmt(f),
        }
    }
}

impl error::Error for SearchError {
    fn source(&self) -> Option<&(dyn error::Error + 'static)> {
        match self {
            SearchError::Faulty(_) => None,
            SearchError::File(error) => error.source(),
        }
    }
}
