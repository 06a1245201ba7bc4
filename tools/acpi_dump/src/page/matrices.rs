//! Distances, latencies and bandwidths between domains, as matrices of boxes.

use super::escape::Html;
use super::escape::Piece::{Decimal, Printed, Text};
use super::sheet::{Sheet, classes_of};
use super::tile::Tile;
use crate::prelude::*;
use acpi_programs::walk::matrix::{Matrix, matrix_of};

/// How many rows and columns of a matrix are drawn at most.
const SHOWN: usize = 16;

/// The classes of values, from the least one on.
const STEPS: [&str; 5] = ["k0", "k1", "k2", "k3", "k4"];

/// Prints the matrices of the SLITs and HMATs that are read, a tile for each.
pub(super) fn print_matrices(sheets: &[Sheet<'_>], out: &mut Html) {
    for sheet in sheets.iter().filter(|sheet| sheet.is_drawn()) {
        for part in sheet.side.parts {
            let bytes = match part.kind {
                None if sheet.is(b"SLIT") => sheet.entry.bytes,
                Some(1) if sheet.is(b"HMAT") => sheet.side.bytes(part.offset, part.length),
                _ => continue,
            };
            if let Some(matrix) = matrix_of(bytes) {
                print_matrix(sheet, part.offset, matrix, out);
            }
        }
    }
}

/// Prints the tile of a matrix at an offset of a table.
fn print_matrix(sheet: &Sheet<'_>, offset: u64, matrix: Matrix<'_>, out: &mut Html) {
    let (all, others) = (matrix.rows, matrix.columns);
    let (rows, columns) = (all.min(SHOWN), others.min(SHOWN));
    let front = "<figure class=\"tile\"><div><figcaption><h3>$</h3><p>$";
    out.fill(front, &[Text(matrix.words), Text(matrix.unit)]);
    if all > rows || others > columns {
        out.words(" the first ones of % to %,", &[all as u64, others as u64]);
    }
    out.markup(" from the left to the top</p>");
    let mut tile = Tile::new(columns as u64 + 1);
    let add_name = |place, tile: &mut Tile| {
        tile.text.words("%", &[matrix.name(place)]);
        tile.add(None, "", "");
    };
    tile.add(None, "", "");
    (0..columns).for_each(|column| add_name(all + column, &mut tile));
    let values = (0..rows).flat_map(|row| (0..columns).filter_map(move |column| matrix.value(row, column)));
    let least = values.min().unwrap_or(u64::MAX);
    for row in 0..rows {
        add_name(row, &mut tile);
        (0..columns).for_each(|column| add_value(sheet, offset, matrix, (row, column), least, &mut tile));
    }
    tile.print(out);
}

/// Adds the box of a value of a matrix whose least one is this. Its class has by how many halves of the least one it
/// is greater than that.
fn add_value(
    sheet: &Sheet<'_>,
    offset: u64,
    matrix: Matrix<'_>,
    (row, column): (usize, usize),
    least: u64,
    tile: &mut Tile,
) {
    let class = if let Some(value) = matrix.value(row, column) {
        tile.text.words("%", &[value]);
        let steps = (value - least).saturating_mul(2) / least.max(1);
        STEPS[size(steps).min(STEPS.len() - 1)]
    } else {
        tile.text.markup("-");
        "rail"
    };
    let (from, to) = (Decimal(matrix.name(row)), Decimal(matrix.name(matrix.rows + column)));
    tile.title.fill("$ from $ to $: $", &[Text(matrix.words), from, to, Printed(&tile.text)]);
    let at = offset + matrix.offset(row, column) as u64;
    let marks = classes_of(sheet.seen(at, matrix.width as u64, (0, false)));
    tile.add(Some((sheet, at)), class, marks);
}
