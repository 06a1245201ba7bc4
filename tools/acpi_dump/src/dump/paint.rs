//! Colors, if the output is to have them.

use crate::prelude::*;
use acpi_programs::input::status::Status;
use core::fmt::Display;

/// Whether colors are printed.
#[derive(Clone, Copy)]
pub(crate) struct Paint {
    pub(crate) is_on: bool,
}

const BOLD: &str = "\x1b[1m";

const GREEN: &str = "\x1b[32m";

const RED: &str = "\x1b[31m";

const PLAIN: &str = "\x1b[0m";

impl Paint {
    fn switch(self, color: &str, out: &mut Out) {
        if self.is_on {
            out.text(color);
        }
    }

    pub(crate) fn heading<D: Display>(self, text: &D, out: &mut Out) {
        self.switch(BOLD, out);
        write!(out, "{text}");
        self.switch(PLAIN, out);
    }

    pub(crate) fn status(self, status: Status, out: &mut Out) {
        self.switch(if status.is_invalid() { RED } else { GREEN }, out);
        out.value(&status);
        self.switch(PLAIN, out);
    }
}
