//! The bytes of a table, 16 a line, in runs of one field each: so that a mark needs no arithmetic.

use super::escape::Html;
use super::escape::Piece::{Digits, Markup, Offset, Padded};
use super::marks::Change;
use super::sheet::Sheet;

/// The run that a byte may be of: the offset of the row that shows it, and whether it differs from the first input.
type Run = Option<(u64, bool)>;

/// The run that a byte of a table is of. The number is that of the field of a byte before, and is then that of its own.
fn run_at(sheet: &Sheet<'_>, offset: u64, number: &mut usize) -> Run {
    let items = sheet.side.items;
    *number += items[*number..].iter().take_while(|item| item.offset.saturating_add(item.length) <= offset).count();
    items.get(*number).filter(|item| item.offset <= offset)?;
    let mark = sheet.mark(*number);
    Some((items[mark.row].offset, !matches!(mark.change, Change::Same)))
}

/// Prints what ends a run, and then what begins one, where they aren't the same, and the blanks between them.
fn print_border(before: Run, run: Run, gap: &'static str, out: &mut Html) {
    let end = Markup(if before.is_some() { "</i>" } else { "" });
    match run {
        _ if before == run => out.markup(gap),
        None => out.fill("$$", &[end, Markup(gap)]),
        Some((row, differs)) => {
            let class = Markup(if differs { " ch" } else { "" });
            out.fill("$$<i class=\"f$$\">", &[end, Markup(gap), Digits(row), class]);
        }
    }
}

/// The blanks before a byte of a line: two in its middle.
fn gap_before(place: usize) -> &'static str {
    match place {
        0 => "",
        8 => "  ",
        _ => " ",
    }
}

/// Prints bytes in hexadecimal digits and as characters, in runs if they are of a table on the page.
pub(super) fn print_bytes(bytes: &[u8], sheet: Option<&Sheet<'_>>, out: &mut Html) {
    let (mut letters, mut number) = (Html::default(), 0);
    for (line, start) in bytes.chunks(16).zip((0..).step_by(16)) {
        out.fill("<b>$</b>  ", &[Offset(start)]);
        let mut before: Run = None;
        for ((place, byte), offset) in line.iter().enumerate().zip(start..) {
            let run = sheet.and_then(|sheet| run_at(sheet, offset, &mut number));
            print_border(before, run, gap_before(place), out);
            print_border(before, run, "", &mut letters);
            out.fill("$", &[Padded(u64::from(*byte), 2)]);
            letters.escaped(&[*byte]);
            before = run;
        }
        print_border(before, None, "", out);
        print_border(before, None, "", &mut letters);
        for place in line.len()..16 {
            out.markup(gap_before(place));
            out.markup("  ");
        }
        out.markup("  ");
        out.append(&letters);
        out.markup("\n");
        letters.clear();
    }
}
