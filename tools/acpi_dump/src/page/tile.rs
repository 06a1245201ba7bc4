//! The tiles of the drawing: boxes in rows, each of which leads to its bytes.

use super::escape::Html;
use super::escape::Piece;
use super::escape::Piece::{Decimal, Printed, Text};
use super::sheet::Sheet;

/// How wide a tile is, how high a row of boxes is, and how much of that and of a box's width is a gap.
const WIDTH: u64 = 340;

const HEIGHT: u64 = 22;

const GAP: u64 = 3;

/// A tile as it is drawn: its boxes so far, and where the next one is.
pub(super) struct Tile {
    /// How many boxes like the next one are beside each other.
    pub(super) columns: u64,
    /// The next box's text, escaped, which is written in it if it fits.
    pub(super) text: Html,
    /// The next box's title, escaped, which is shown under the pointer.
    pub(super) title: Html,
    boxes: Html,
    x: u64,
    y: u64,
}

impl Tile {
    pub(super) fn new(columns: u64) -> Tile {
        Tile { columns, text: Html::default(), title: Html::default(), boxes: Html::default(), x: 0, y: 0 }
    }

    /// Draws a box that leads to a byte of a table, or only its text, beside the one before if it fits there. The marks
    /// are the classes of findings and changes.
    pub(super) fn add(&mut self, target: Option<(&Sheet<'_>, u64)>, class: &'static str, marks: &'static str) {
        let width = WIDTH / self.columns.max(1);
        if self.x > WIDTH.saturating_sub(width) {
            self.x = 0;
            self.y += HEIGHT;
        }
        if let Some((sheet, offset)) = target {
            self.add_rect(sheet.link(offset), class, marks, width);
        }
        self.add_text(width);
        self.boxes.markup(if target.is_some() { "</a>\n" } else { "\n" });
        self.x += width;
        self.text.clear();
        self.title.clear();
    }

    /// Draws the box itself, of a width with its gap, as a link that ends after the text.
    fn add_rect(&mut self, link: Piece<'static>, class: &'static str, marks: &'static str, width: u64) {
        self.boxes.fill(
            "<a class=\"$\" href=\"#$\"><title>$</title>\
             <rect class=\"$\" x=\"$\" y=\"$\" width=\"$\" height=\"$\"/>",
            &[
                Text(marks),
                link,
                Printed(&self.title),
                Text(class),
                Decimal(self.x),
                Decimal(self.y),
                Decimal(width.saturating_sub(GAP)),
                Decimal(HEIGHT - GAP),
            ],
        );
    }

    /// Draws the text of a box of a width with its gap, if it fits.
    fn add_text(&mut self, width: u64) {
        let middle = width.saturating_sub(GAP) / 2;
        let (class, letter, start) = match self.columns {
            1 => ("", 0, 6),
            2..=8 => ("c", 8, middle),
            _ => ("s c", 7, middle),
        };
        if (self.text.as_str().len() as u64).saturating_mul(letter) <= width {
            let place = [Text(class), Decimal(self.x + start), Decimal(self.y + 14), Printed(&self.text)];
            let text = "<text class=\"$\" x=\"$\" y=\"$\">$</text>";
            self.boxes.fill(text, &place);
        }
    }

    pub(super) fn print(self, out: &mut Html) {
        let height = Decimal(self.y + HEIGHT);
        out.fill(
            "</figcaption><svg viewBox=\"0 0 $ $\" role=\"group\">\n$</svg></div></figure>\n",
            &[Decimal(WIDTH), height, Printed(&self.boxes)],
        );
    }
}
