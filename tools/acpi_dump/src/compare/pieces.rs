//! The pieces that the value of an object of AML has: elements, of resources and of packages, and in these parts.

use super::pairs::Key;

/// A text up to the first of a mark that is outside of quotes and brackets, with a blank after it, and the rest.
pub(super) fn cut_piece(text: &str, mark: u8) -> (&str, &str) {
    let (mut depth, mut is_quoted, mut is_escaped) = (0u32, false, false);
    for (place, letter) in text.bytes().enumerate() {
        match letter {
            _ if is_escaped => is_escaped = false,
            b'"' => is_quoted = !is_quoted,
            _ if is_quoted => is_escaped = letter == b'\\',
            b'{' | b'(' => depth += 1,
            b'}' | b')' => depth = depth.saturating_sub(1),
            _ if letter == mark && depth == 0 => return (&text[..place], text.get(place + 2..).unwrap_or("")),
            _ => {}
        }
    }
    (text, "")
}

pub(super) fn elements_of(value: &str) -> Vec<&str> {
    let (mut elements, mut rest) = (Vec::new(), value.trim_ascii());
    while !rest.is_empty() {
        let (element, others) = cut_piece(rest, b';');
        elements.push(element);
        rest = others;
    }
    elements
}

/// What is in the braces of a package, or all of another element.
pub(super) fn inner(element: &str) -> &str {
    match element.strip_prefix('{') {
        Some(rest) => rest.strip_suffix('}').unwrap_or(rest),
        None => element,
    }
}

/// What an element begins with, by which it is known: of a package two pieces, unless these have pieces themselves, and
/// of others one.
pub(super) fn head_of(element: &str) -> &str {
    let whole = inner(element);
    let (first, rest) = cut_piece(whole, b',');
    if whole.len() == element.len() {
        return first;
    }
    if whole.starts_with(['{', '(']) {
        return "";
    }
    let (second, _) = cut_piece(rest, b',');
    whole.get(..first.len() + second.len() + 2).unwrap_or(whole)
}

/// Of two texts, each as its first piece and the rest, whether the first pieces come now: both, or one that the other
/// text has next was left out or added.
pub(super) fn step_of(old: (&str, &str), new: (&str, &str)) -> (bool, bool) {
    let is_next = |rest: &str, piece: &str| !rest.is_empty() && cut_piece(rest, b',').0 == piece;
    if old.0 == new.0 {
        (true, true)
    } else if new == ("", "") || is_next(old.1, new.0) {
        (true, false)
    } else if old == ("", "") || is_next(new.1, old.0) {
        (false, true)
    } else {
        (true, true)
    }
}

/// By what elements are paired: their first words, what they begin with, and all of them.
pub(super) fn keys_of<'a>(elements: &[&'a str]) -> Vec<Key<'a>> {
    let word = |element: &'a str| element.split_once(' ').map_or(element, |(word, _)| word);
    let key = |(number, element): (usize, &&'a str)| (0, word(element), head_of(element), *element, number);
    let mut keys: Vec<_> = elements.iter().enumerate().map(key).collect();
    keys.sort_unstable();
    keys
}
