// Made by scripts/erase of crates/acpi_dump_code/src/terms.rt, where it is proved.
//! The steps of a listing: each reads a part of the operation that began last, or ends it.

use crate::code::begun::Begun;
use crate::code::known::Meaning;
use crate::code::lines::Listing;
use crate::code::listing::ShowCode;
use crate::code::names::base_end;
use crate::code::parts::{
    begins_name, print_flags, print_name, print_number, print_operator, print_simple, print_space, print_unit,
    simple_end,
};
use crate::code::why::Why;
use crate::walk::aml::units::unit_at;
use crate::walk::fields::print_hex;
use zacpi::sleep::AmlError;
use zacpi::sleep::block::block_at;
use zacpi::sleep::name::name_at;

/// How many bytes of a buffer a line has.
const ROW: usize = 16;

/// The arguments of a call.
const ARGUMENTS: &[u8] = b"TTTTTTT";

/// The kind of an external object that is a method (section 20.2.5.2).
const METHOD: u8 = 8;

impl Listing<'_, '_, '_, '_> {
    /// Reads the next part of an operation, or ends it.
    ///
    /// Fails if the part isn't understood.
    pub(crate) fn go_on<S: ShowCode>(&mut self, begun: Begun, show: &mut S) -> Result<(), Why> {
        let mut begun = begun;
        let Some(part) = begun.next(self.at) else {
            if begun.has_block {
                self.at = begun.end;
            }
            self.letters.truncate(begun.letters);
            return Ok(());
        };
        let (table, at, end) = (self.table, self.at, begun.end);
        if at >= end || end > table.len() {
            return Err(Why::from(AmlError::PastEnd(at)));
        }
        let aml = &table[..end];
        match part {
            b'P' => {
                let block = block_at(aml, at)?;
                begun.end = block.end;
                begun.has_block = true;
                self.at = block.start;
            }
            b'T' | b'S' | b'R' | b'L' | b'E' => return self.term(begun, part, aml, at, show),
            b'N' | b'n' | b'O' | b'A' => self.name(&mut begun, part, aml, at, show)?,
            b'F' => return self.unit(begun, aml, at, show),
            b'B' => self.row(&mut begun, aml, at, show),
            _ => self.number(&mut begun, part, aml, at, show)?,
        }
        self.push(begun)?;
        Ok(())
    }

    /// Reads a term: a part that is simple, a name, a call or an operation.
    fn term<S: ShowCode>(&mut self, begun: Begun, part: u8, aml: &[u8], at: usize, show: &mut S) -> Result<(), Why> {
        let mut begun = begun;
        let lead = aml[at];
        if lead == 0 && matches!(part, b'S' | b'R') {
            self.begin_part(&mut begun, part, show);
            self.text.text("NullName");
            self.at = at + 1;
        } else if let Some(end) = simple_end(aml, at)? {
            self.begin_part(&mut begun, part, show);
            print_simple(aml.get(at..end).unwrap_or(&[]), &mut self.text);
            self.at = end;
        } else if begins_name(lead) {
            return self.named(begun, part, aml, at, show);
        } else {
            let Some((operation, end)) = self.operations.find(aml, at)? else {
                return Err(Why::NoOpcode(at));
            };
            self.begin(begun, part, operation.parts, show)?;
            self.text.text(operation.name);
            self.at = end;
            return Ok(());
        }
        self.push(begun)?;
        Ok(())
    }

    /// Reads a name that is a part of an operation: a call if it is a method's and the part may be one.
    fn named<S: ShowCode>(&mut self, begun: Begun, part: u8, aml: &[u8], at: usize, show: &mut S) -> Result<(), Why> {
        let mut begun = begun;
        let name = name_at(aml, at)?;
        let written = aml.get(at..name.end).unwrap_or(&[]);
        let meaning = match part {
            b'R' | b'E' => Meaning::Found(None),
            _ => self.find(begun.scope, aml, at, &name)?.1,
        };
        match meaning {
            Meaning::Found(Some(count)) => {
                let Some(rest) = ARGUMENTS.get(..count as usize) else {
                    return Err(Why::Several(at));
                };
                self.begin(begun, part, rest, show)?;
                self.text.text("Call ");
                print_name(written, &mut self.text);
                if let Some(call) = self.begun.last_mut() {
                    call.has_parts = true;
                }
                self.at = name.end;
                return Ok(());
            }
            Meaning::Unknown if part != b'S' => return Err(Why::Unknown(at)),
            Meaning::Several => return Err(Why::Several(at)),
            _ => {}
        }
        self.begin_part(&mut begun, part, show);
        print_name(written, &mut self.text);
        self.at = name.end;
        self.push(begun)?;
        Ok(())
    }
}

impl Listing<'_, '_, '_, '_> {
    /// Reads a number, or what else has a length that doesn't depend on its bytes.
    fn number<S: ShowCode>(
        &mut self,
        begun: &mut Begun,
        part: u8,
        aml: &[u8],
        at: usize,
        show: &mut S,
    ) -> Result<(), Why> {
        let width = match part {
            b'w' | b'X' => 2,
            b'd' => 4,
            _ => 1,
        };
        let end = at.saturating_add(width);
        let Some(bytes) = aml.get(at..end) else {
            return Err(Why::from(AmlError::PastEnd(at)));
        };
        self.begin_part(begun, part, show);
        self.at = end;
        let path = begun.path.unwrap_or((0, 0));
        match (part, bytes) {
            (b's', [space]) => print_space(*space, &mut self.text),
            (b'm', [operator]) => print_operator(*operator, &mut self.text),
            (b'M', [flags]) => {
                print_flags(*flags, &mut self.text);
                self.define(path, false, Some(*flags % 8), show);
            }
            (b'X', [kind, count]) => {
                let numbers = [*kind as u64, *count as u64];
                self.text.words("type #, arguments %", &numbers);
                let arguments = (*kind == METHOD).then_some(*count);
                if (*count as usize) <= ARGUMENTS.len() {
                    self.define(path, true, arguments, show);
                }
            }
            _ => print_number(bytes, &mut self.text),
        }
        Ok(())
    }

    /// Reads a unit of a field (section 20.2.5.2).
    fn unit<S: ShowCode>(&mut self, begun: Begun, aml: &[u8], at: usize, show: &mut S) -> Result<(), Why> {
        let mut begun = begun;
        if aml[at] == 0x02 {
            self.begin(begun, b'F', b"R", show)?;
            self.text.text("ConnectField");
            self.at = at + 1;
            return Ok(());
        }
        let unit = unit_at(aml, at)?;
        let Some(bytes) = aml.get(at..unit.end) else {
            return Err(Why::from(AmlError::PastEnd(at)));
        };
        self.begin_part(&mut begun, b'F', show);
        print_unit(bytes, unit.bits, &mut self.text);
        self.at = unit.end;
        if let Some(name) = &unit.name {
            let end = base_end(begun.scope, aml, at, name);
            let path = self.add_path(begun.scope, end, aml, at, name)?;
            self.define(path, false, None, show);
            self.letters.truncate(path.0);
        }
        self.push(begun)?;
        Ok(())
    }

    /// Reads bytes of a buffer, a line's.
    fn row<S: ShowCode>(&mut self, begun: &mut Begun, aml: &[u8], at: usize, show: &mut S) {
        self.begin_part(begun, b'B', show);
        let end = at.saturating_add(ROW).min(aml.len());
        print_hex(aml.get(at..end).unwrap_or(&[]), &mut self.text);
        self.at = end;
    }

    /// Goes on after the block that has a part which isn't understood.
    pub(crate) fn skip<S: ShowCode>(&mut self, begun: Begun, why: Why, show: &mut S) {
        self.end_line(show);
        let mut block = begun;
        for _ in 0..self.begun.len() {
            if block.has_block {
                break;
            }
            if let Some(outer) = self.begun.pop() {
                block = outer;
            }
        }
        why.print(self.table, &mut self.text);
        if let Some(text) = self.text.printed() {
            show.ends(self.at as u64, block.end as u64, begun.inner, text);
        }
        self.text.clear();
        self.letters.truncate(block.letters);
        self.at = block.end;
    }
}
