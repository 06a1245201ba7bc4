// Made by scripts/erase of crates/acpi_sleep/src/step.rt, where it is proved.
//! One step of the walk: the object at a place (sections 20.2.5.1 and 20.2.5.2).

use crate::base::bytes::{field, skip};
use crate::sleep::argument::{argument_end, is_operator, operand_end};
use crate::sleep::block::{block_at, byte_at};
use crate::sleep::error::AmlError;
use crate::sleep::name::{Name, begins_name, name_at};
use crate::sleep::opcode::{is_expression, is_statement, opcode_at};
use crate::sleep::package::types_at;
use crate::sleep::sleep::SleepTypes;
use crate::sleep::term::{parts_end, parts_of};

/// A place of the walk.
#[derive(Clone, Copy, Debug)]
pub(crate) struct Place {
    /// The offset of the next object.
    pub(crate) at: usize,
    /// The offset after the scope of the root that it is in, if there is one: the outermost.
    pub(crate) scope: Option<usize>,
    /// Whether an argument of a call may begin here: the object before it has arguments, of which one may be a call.
    pub(crate) called: bool,
}

impl Place {
    /// The place at an offset after an object that has no arguments.
    pub(crate) fn after(scope: Option<usize>, at: usize) -> Place {
        Place { at, scope, called: false }
    }
}

/// What an object leads to.
#[derive(Clone, Copy, Debug)]
pub(crate) enum Step {
    /// It is the state's name, and has these sleep types.
    Found(SleepTypes),
    /// The walk goes on.
    On(Place),
    /// It goes on past an object which may define the name where the walk doesn't see it.
    Unseen(Place),
}

/// The step past an object.
fn passed(may_define: bool, next: Place) -> Step {
    if may_define { Step::Unseen(next) } else { Step::On(next) }
}

/// The number of the four bytes of a state's name.
fn state_code(state: u8) -> u32 {
    u32::from_le_bytes([b'_', b'S', b'0' + state, b'_'])
}

/// Whether a name that is at the root is that of a sleep state there.
fn is_state(aml: &[u8], state: u8, name: &Name) -> bool {
    name.ups == 0 && name.segments == 1 && field(aml, name.first, 4) == state_code(state) as u64
}

/// Whether bytes contain the four letters of a name, which this is the number of.
fn contains_name(code: u32, bytes: &[u8]) -> bool {
    for i in 0..bytes.len() {
        if field(bytes, i, 4) == code as u64 {
            return true;
        }
    }
    false
}

/// The step at a name whose opcode ends at an offset.
fn named_at(aml: &[u8], state: u8, scope: Option<usize>, at: usize) -> Result<Step, AmlError> {
    let name = name_at(aml, at)?;
    if is_state(aml, state, &name) {
        let types = types_at(aml, name.end)?;
        return Ok(Step::Found(types));
    }
    let lead = byte_at(aml, name.end)?;
    let next = argument_end(aml, name.end)?;
    Ok(Step::On(Place { at: next, scope, called: begins_name(lead) || is_operator(lead) }))
}

/// The step at a scope whose opcode ends at an offset.
fn scope_at(aml: &[u8], state: u8, scope: Option<usize>, at: usize) -> Result<Step, AmlError> {
    let block = block_at(aml, at)?;
    let name = name_at(&aml[..block.end], block.start)?;
    if name.is_root() {
        return Ok(Step::On(Place::after(scope.or(Some(block.end)), name.end)));
    }
    let may_define = contains_name(state_code(state), skip(&aml[..block.end], block.start));
    Ok(passed(may_define, Place::after(scope, block.end)))
}

/// The step at a method whose opcode ends at an offset.
fn method_at(aml: &[u8], state: u8, scope: Option<usize>, at: usize) -> Result<Step, AmlError> {
    let block = block_at(aml, at)?;
    let name = name_at(&aml[..block.end], block.start)?;
    Ok(passed(is_state(aml, state, &name), Place::after(scope, block.end)))
}

/// The step at an alias whose opcode ends at an offset.
fn alias_at(aml: &[u8], state: u8, scope: Option<usize>, at: usize) -> Result<Step, AmlError> {
    let object = name_at(aml, at)?;
    let name = name_at(aml, object.end)?;
    Ok(passed(is_state(aml, state, &name), Place::after(scope, name.end)))
}

/// Whether an opcode is that of an `If`, an `Else` or a `While`.
fn is_conditional(code: u16) -> bool {
    0xA0 <= code && code <= 0xA2
}

/// Whether a term with these bytes after its opcode may define the name of a state.
fn may_define(state: u8, code: u16, bytes: &[u8]) -> bool {
    is_conditional(code) || (code != 0x15 && contains_name(state_code(state), bytes))
}

/// Whether an opcode is that of a term with arguments: a buffer field or a region.
fn has_arguments(code: u16) -> bool {
    (0x8A <= code && code <= 0x8F) || matches!(code, 0x5B13 | 0x5B80 | 0x5B88)
}

/// Whether a byte begins an expression that is no operator: a buffer, a package, or a call.
fn is_value(lead: u8) -> bool {
    (0x11 <= lead && lead <= 0x13) || begins_name(lead)
}

/// Why the walk doesn't pass what begins at an offset with an opcode that isn't that of an object.
fn no_term(aml: &[u8], code: u16, called: bool, at: usize) -> AmlError {
    if is_statement(code) || is_expression(code) {
        return AmlError::NotRead(at);
    }
    if !called && !is_value(aml[at]) {
        return AmlError::UnknownTerm(at);
    }
    match operand_end(aml, at) {
        Ok(_) => AmlError::NotRead(at),
        Err(error) => error,
    }
}

/// The step at the object at an offset.
fn object_at(aml: &[u8], state: u8, scope: Option<usize>, called: bool, at: usize) -> Result<Step, AmlError> {
    let opcode = opcode_at(aml, at)?;
    if opcode.code == 0x08 {
        return named_at(aml, state, scope, opcode.end);
    }
    if opcode.code == 0x10 {
        return scope_at(aml, state, scope, opcode.end);
    }
    if opcode.code == 0x14 {
        return method_at(aml, state, scope, opcode.end);
    }
    if opcode.code == 0x06 {
        return alias_at(aml, state, scope, opcode.end);
    }
    let Some(parts) = parts_of(opcode.code) else {
        return Err(no_term(aml, opcode.code, called, at));
    };
    let end = parts_end(parts, aml, opcode.end)?;
    let next = Place { at: end, scope, called: has_arguments(opcode.code) };
    Ok(passed(may_define(state, opcode.code, skip(&aml[..end], opcode.end)), next))
}

/// The same, where what isn't read is passed with all that follows it.
fn seen_at(aml: &[u8], state: u8, scope: Option<usize>, place: Place) -> Result<Step, AmlError> {
    match object_at(aml, state, scope, place.called, place.at) {
        Err(AmlError::NotRead(_)) => Ok(Step::Unseen(Place::after(scope, aml.len()))),
        step => step,
    }
}

/// The step at a place. At the end of a scope of the root it leaves the scope.
pub(crate) fn step_at(aml: &[u8], state: u8, place: Place) -> Result<Step, AmlError> {
    match place.scope {
        Some(end) if place.at < end => seen_at(&aml[..end], state, place.scope, place),
        _ => seen_at(aml, state, None, place),
    }
}
