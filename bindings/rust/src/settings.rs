//! A wall's settings, before and after the checks: §2.1 to §2.6.

use crate::{ffi, Refusal};

/// The seven numbers of a wall, as they are given. [`Settings::new`] checks them.
#[repr(C)]
#[derive(Clone, Copy, Debug, PartialEq, Eq, Hash)]
pub struct Limits {
    /// W, the tiles of a row: 6 to 256.
    pub width: u64,
    /// R, the rows after row 0: 1 to 1,024.
    pub rows: u64,
    /// d, the longest delay of a link: 1 to 1,000,000.
    pub delay: u64,
    /// u, by how much a delay may be shorter: 0 to d.
    pub uncertainty: u64,
    /// A, how long a tile holds a pulse: 1 to 1,000,000, and at least 16h.
    pub hold: u64,
    /// r, the largest drift of a clock, in parts per million: 0 to 10,000.
    pub drift: u64,
    /// h, the unit of the forwarding rule: 1 to 62,500, and at least u + c + 2, where c is r × A /
    /// (1,000,000 + r) rounded up.
    pub unit: u64,
}

/// A wall's settings, which keep every limit: there is no other way to one than the checks of
/// [`Settings::new`].
#[derive(Clone, Copy, Debug, PartialEq, Eq, Hash)]
pub struct Settings(Limits);

impl Settings {
    /// The settings, or number 1 to 9.
    ///
    /// ```
    /// use polzaintu::{Limits, Settings};
    ///
    /// let given = Limits {
    ///     width: 6, rows: 1, delay: 100, uncertainty: 10, hold: 400, drift: 10_000, unit: 15,
    /// };
    /// assert_eq!(Settings::new(given).unwrap_err().number(), 8);
    /// assert!(Settings::new(Limits { unit: 16, ..given }).is_ok());
    /// ```
    pub fn new(limits: Limits) -> Result<Settings, Refusal> {
        Refusal::check(ffi::settings_refusal(&limits))?;
        Ok(Settings(limits))
    }

    /// The seven numbers.
    #[must_use]
    pub fn limits(&self) -> &Limits {
        &self.0
    }

    /// W, the times, the drifts and the phases of a row.
    #[must_use]
    pub fn width(&self) -> usize {
        // At most 256.
        self.0.width as usize
    }

    /// The bytes of a row's fault marks: W / 8, rounded up.
    #[must_use]
    pub fn mark_bytes(&self) -> usize {
        self.width().div_ceil(8)
    }

    /// The link values of a row: 3W + 2.
    #[must_use]
    pub fn link_values(&self) -> usize {
        3 * self.width() + 2
    }
}
