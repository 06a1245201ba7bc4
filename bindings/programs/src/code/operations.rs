// Made by scripts/erase of crates/acpi_dump_code/src/operations.rt, where it is proved.
//! The operations of AML, by their opcodes.

use crate::rattle::Pieces;
use crate::rattle::alloc::{AllocError, Global};
use crate::rattle::{Vec, vec};
use zacpi::sleep::AmlError;
use zacpi::sleep::opcode::opcode_at;

/// The operations of ACPI 6.5 and those that it no longer has, a line for each: its opcode in hexadecimal digits, its
/// name, and a letter for each part that comes after the opcode, or `-`. The name is that of its rule in section 20.2,
/// as `Add` of `DefAdd`, and without a rule that of its opcode there.
///
/// - `P` is a PkgLength, by which the block of the operation ends.
/// - `T` is a TermArg, in which the name of a method is a call; `S` a SuperName, also a NullName, in which the name of
///   a method that is known is a call; `R` one in which a name is itself, as a Target.
/// - `N` is a name that is defined, `O` the name of a scope that is opened, `n` another one, `A` the two of an alias.
/// - `b`, `w` and `d` are a number of 1, 2 or 4 bytes, `s` an address space, `m` the operator of a match, `M` a
///   method's flags, and `X` the kind of an external object and its number of arguments.
/// - `L`, `E`, `F` and `B` are what fills the block: terms, a package's elements, a field's units, and bytes.
const OPERATIONS: &str = "06 Alias A
08 Name NT
10 Scope POL
11 Buffer PTB
12 Package PbE
13 VarPackage PTE
14 Method PNML
15 External NX
70 Store TS
71 RefOf R
72 Add TTR
73 Concat TTR
74 Subtract TTR
75 Increment S
76 Decrement S
77 Multiply TTR
78 Divide TTRR
79 ShiftLeft TTR
7a ShiftRight TTR
7b And TTR
7c NAnd TTR
7d Or TTR
7e NOr TTR
7f XOr TTR
80 Not TR
81 FindSetLeftBit TR
82 FindSetRightBit TR
83 DerefOf T
84 ConcatRes TTR
85 Mod TTR
86 Notify ST
87 SizeOf S
88 Index TTR
89 Match TmTmTT
8a CreateDWordField TTN
8b CreateWordField TTN
8c CreateByteField TTN
8d CreateBitField TTN
8e ObjectType R
8f CreateQWordField TTN
90 LAnd TT
91 LOr TT
92 LNot T
93 LEqual TT
94 LGreater TT
95 LLess TT
96 ToBuffer TR
97 ToDecimalString TR
98 ToHexString TR
99 ToInteger TR
9c ToString TTR
9d CopyObject TR
9e Mid TTTR
9f Continue -
a0 If PTL
a1 Else PL
a2 While PTL
a3 Noop -
a4 Return T
a5 Break -
cc BreakPoint -
5b01 Mutex Nb
5b02 Event N
5b12 CondRefOf RR
5b13 CreateField TTTN
5b1f LoadTable TTTTTT
5b20 Load nR
5b21 Stall T
5b22 Sleep T
5b23 Acquire Sw
5b24 Signal S
5b25 Wait ST
5b26 Reset S
5b27 Release S
5b28 FromBCD TR
5b29 ToBCD TR
5b2a Unload S
5b32 Fatal bdT
5b33 Timer -
5b80 OpRegion NsTT
5b81 Field PnbF
5b82 Device PNL
5b83 Processor PNbdbL
5b84 PowerRes PNbwL
5b85 ThermalZone PNL
5b86 IndexField PnnbF
5b87 BankField PnnTbF
5b88 DataRegion NTTT
9293 LNotEqual TT
9294 LLessEqual TT
9295 LGreaterEqual TT";

/// An operation: its name, and its parts as the letters above have them.
#[derive(Clone, Copy)]
pub(crate) struct Operation {
    pub(crate) name: &'static str,
    pub(crate) parts: &'static [u8],
}

/// The operation that a line describes, and its opcode.
fn operation_of(line: &'static str) -> Option<(u16, Operation)> {
    let (code, rest) = line.two_pieces(' ')?;
    let (name, parts) = rest.two_pieces(' ')?;
    let operation = Operation { name, parts: parts.strip_suffix('-').unwrap_or(parts).as_bytes() };
    Some((u16::from_str_radix(code, 16).ok()?, operation))
}

/// The operations, so that one is found at once.
pub(crate) struct Operations {
    /// Those with an opcode of one byte, and after them those that begin with 0x5b or 0x92, by their last byte.
    list: Vec<Option<Operation>>,
}

/// The place of an opcode in the list.
fn place_of(code: u16) -> usize {
    match code / 256 {
        0x5B => 256 + code as usize % 256,
        0x92 => 512 + code as usize % 256,
        _ => code as usize % 256,
    }
}

impl Operations {
    /// All of them.
    pub(crate) fn new(alloc: Global) -> Result<Operations, AllocError> {
        let mut list: Vec<Option<Operation>> = vec![in alloc; None; 768]?;
        for line in OPERATIONS.pieces('\n') {
            if let Some((code, operation)) = operation_of(line)
                && let Some(place) = list.get_mut(place_of(code))
            {
                *place = Some(operation);
            }
        }
        Ok(Operations { list })
    }

    /// The operation that begins at an offset, if there is one, and the offset after its opcode.
    pub(crate) fn find(&self, aml: &[u8], at: usize) -> Result<Option<(Operation, usize)>, AmlError> {
        let opcode = opcode_at(aml, at)?;
        let (mut code, mut end) = (opcode.code, opcode.end);
        if code == 0x92
            && let Some(next) = aml.get(end)
            && matches!(*next, 0x93..=0x95)
        {
            code = 0x9200 + *next as u16;
            end = end.saturating_add(1);
        }
        match self.list.get(place_of(code)) {
            Some(Some(operation)) => Ok(Some((*operation, end))),
            _ => Ok(None),
        }
    }
}
