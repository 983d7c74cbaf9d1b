//! A column's mark and a link's place, for every column of walls of some widths.

use crate::common::{links, settings, PRINTED};
use polzaintu::row::{link_place, marked};
use polzaintu::{Limits, Settings};

fn wall(width: usize) -> Settings {
    settings(Limits {
        width: width as u64,
        ..PRINTED
    })
}

#[test]
fn marks() {
    for width in [6, 8, 9, 256] {
        let settings = wall(width);
        for set in 0..width {
            let mut marks = vec![0; width.div_ceil(8)];
            marks[set / 8] |= 1 << (set % 8);
            for column in 0..width {
                assert_eq!(
                    marked(&settings, &marks, column),
                    Ok(Some(column == set)),
                    "{width} {column}"
                );
            }
            for column in [width, usize::MAX] {
                assert_eq!(marked(&settings, &marks, column), Ok(None));
            }
        }
        for length in [0, width.div_ceil(8) - 1, width.div_ceil(8) + 1] {
            let refusal = marked(&settings, &vec![0; length], width).unwrap_err();
            assert_eq!(refusal.number(), 21);
        }
    }
}

#[test]
fn link_places() {
    for width in [6, 7, 9, 256] {
        let settings = wall(width);
        let places = links(width);
        assert_eq!(places.len(), settings.link_values());
        let mut place = 0;
        for tile in 0..width {
            for sender in 0..width + 2 {
                let found = link_place(&settings, tile, sender);
                if places.get(place) == Some(&(tile, sender)) {
                    assert_eq!(found, Some(place));
                    place += 1;
                } else {
                    assert_eq!(found, None, "{width} {tile} {sender}");
                }
            }
        }
        assert_eq!(place, places.len());
        for tile in [width, usize::MAX] {
            assert_eq!(link_place(&settings, tile, width - 1), None);
        }
    }
}

/// The crate and the static library are of one version.
#[test]
fn versions() {
    let part = |part: &str| part.parse::<u32>().unwrap();
    let [major, minor, patch] = [
        part(env!("CARGO_PKG_VERSION_MAJOR")),
        part(env!("CARGO_PKG_VERSION_MINOR")),
        part(env!("CARGO_PKG_VERSION_PATCH")),
    ];
    assert_eq!(polzaintu::version(), (major * 1000 + minor) * 1000 + patch);
}
