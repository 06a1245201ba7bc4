//! Shows bytes in all views: the first one chooses what kind of input the others are.
#![no_main]

#[path = "../../tests/views/mod.rs"]
mod views;

libfuzzer_sys::fuzz_target!(|bytes: &[u8]| {
    let kinds: [&[&str]; 5] = [&[], &["--as", "image"], &["--as", "text"], &["--as", "table"], &["--at", "0x0"]];
    if let [kind, input @ ..] = bytes {
        views::show_all(kinds[usize::from(*kind) % kinds.len()], input);
    }
});
