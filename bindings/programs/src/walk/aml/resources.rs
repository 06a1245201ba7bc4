// Made by scripts/erase of crates/acpi_dump_walk/src/aml/resources.rt, where it is proved.
//! Descriptors of resources (section 6.4).

use super::parts::{Form, form_of, print_form};
use crate::rattle::Pieces;
use crate::walk::fields::{name_of, print_hex};
use crate::walk::language::factor_of;
use crate::walk::out::Out;

/// The end tag.
pub const END: u8 = 0x78;

/// Descriptors by their first byte, in the language of `parts`, with the names of ASL's macros and its words (section
/// 19.6). What an address space, a GPIO or a serial bus adds by its type is in blocks of three digits.
const DESCRIPTORS: &str = "\
= 0x22 3 - IRQNoFlags
interrupts bits 1:2 %
= 0x23 4 - IRQ
interrupts bits 1:2 %
mode word 3:1 0 0 Level|Edge
polarity word 3:1 3 3 ActiveHigh|ActiveLow
sharing word 3:1 4 5 Exclusive|Shared|ExclusiveAndWake|SharedAndWake
= 0x2a 3 - DMA
channels bits 1:1 %
type word 2:1 5 6 Compatibility|TypeA|TypeB|TypeF
master word 2:1 2 2 NotBusMaster|BusMaster
size word 2:1 0 1 Transfer8|Transfer8_16|Transfer16|InvalidSize
= 0x30 1 - StartDependentFnNoPri
= 0x31 2 - StartDependentFn
compatibility word 1:1 0 1
performance word 1:1 2 3
= 0x38 1 - EndDependentFn
= 0x47 8 - IO
min hex 2:2 from %
max hex 4:2 +to %
align hex 6:1 aligned to %
length hex 7:1
decode word 1:1 0 0 Decode10|Decode16
= 0x4b 4 - FixedIO
min hex 1:2 from %
length hex 3:1
= 0x55 6 - FixedDMA
request dec 1:2
channel dec 3:2
width word 5:1 0 7 Width8bit|Width16bit|Width32bit|Width64bit|Width128bit|Width256bit
= 0x70-0x77 1 - VendorShort
data bytes 1 * %
= 0x81 12 - Memory24
min hex 4:2*256 from %
max hex 6:2*256 +to %
align hex 8:2 aligned to %
length hex 10:2*256
access word 3:1 0 0 ReadOnly|ReadWrite
= 0x82 15 - Register
space code 3:1 0 SystemMemory|1 SystemIO|2 PCI_Config|3 EmbeddedControl|4 SMBus|5 SystemCMOS|6 PciBarTarget|7 IPMI|\
8 GeneralPurposeIO|9 GenericSerialBus|10 PCC|11 PlatformRtMechanism|127 FFixedHW
width dec 4:1 % bits
offset dec 5:1
size dec? 6:1 access size %
address hex 7:8 at %
= 0x84 3 - VendorLong
data bytes 3 * %
= 0x85 20 - Memory32
min hex 4:4 from %
max hex 8:4 +to %
align hex 12:4 aligned to %
length hex 16:4
access word 3:1 0 0 ReadOnly|ReadWrite
= 0x86 12 - Memory32Fixed
min hex 4:4 from %
length hex 8:4
access word 3:1 0 0 ReadOnly|ReadWrite
= 0x87 26 0x100+3:1 DWord
min hex 10:4 from %
max hex 14:4 +to %
length hex 22:4
granularity hex? 6:4
translation hex? 18:4
usage word 4:1 0 0 ResourceProducer|ResourceConsumer
decode word 4:1 1 1 PosDecode|SubDecode
min_fixed word 4:1 2 2 MinNotFixed|MinFixed
max_fixed word 4:1 3 3 MaxNotFixed|MaxFixed
~source text 27
index dec? 26:1
= 0x88 16 0x100+3:1 Word
min hex 8:2 from %
max hex 10:2 +to %
length hex 14:2
granularity hex? 6:2
translation hex? 12:2
usage word 4:1 0 0 ResourceProducer|ResourceConsumer
decode word 4:1 1 1 PosDecode|SubDecode
min_fixed word 4:1 2 2 MinNotFixed|MinFixed
max_fixed word 4:1 3 3 MaxNotFixed|MaxFixed
~source text 17
index dec? 16:1
= 0x8a 46 0x100+3:1 QWord
min hex 14:8 from %
max hex 22:8 +to %
length hex 38:8
granularity hex? 6:8
translation hex? 30:8
usage word 4:1 0 0 ResourceProducer|ResourceConsumer
decode word 4:1 1 1 PosDecode|SubDecode
min_fixed word 4:1 2 2 MinNotFixed|MinFixed
max_fixed word 4:1 3 3 MaxNotFixed|MaxFixed
~source text 47
index dec? 46:1
= 0x8b 56 0x100+3:1 Extended
min hex 16:8 from %
max hex 24:8 +to %
length hex 40:8
granularity hex? 8:8
translation hex? 32:8
usage word 4:1 0 0 ResourceProducer|ResourceConsumer
decode word 4:1 1 1 PosDecode|SubDecode
min_fixed word 4:1 2 2 MinNotFixed|MinFixed
max_fixed word 4:1 3 3 MaxNotFixed|MaxFixed
~attributes hex? 48:8
= 0x100 0 - Memory
cache word 5:1 1 2 NonCacheable|Cacheable|WriteCombining|Prefetchable
access word 5:1 0 0 ReadOnly|ReadWrite
memory word 5:1 3 4 -AddressRangeMemory|AddressRangeReserved|AddressRangeACPI|AddressRangeNVS
translated word 5:1 5 5 -TypeStatic|TypeTranslation
= 0x101 0 - IO
ranges word 5:1 0 1 InvalidRanges|NonISAOnlyRanges|ISAOnlyRanges|EntireRange
translated word 5:1 4 4 -TypeStatic|TypeTranslation
dense word 5:1 5 5 -DenseTranslation|SparseTranslation
= 0x102 0 - BusNumber
= 0x1ff 0 - Space
type hex 3:1
flags hex 5:1
= 0x89 5 - Interrupt
interrupts list 5 5+4:1*4 4 %
usage word 3:1 0 0 ResourceProducer|ResourceConsumer
mode word 3:1 1 1 Level|Edge
polarity word 3:1 2 2 ActiveHigh|ActiveLow
sharing word 3:1 3 4 Exclusive|Shared|ExclusiveAndWake|SharedAndWake
source text 6+4:1*4
index byte? 5+4:1*4
= 0x8c 23 0x200+4:1 Gpio
pins list 14:2 17:2 2
~pull word 9:1 0 7 PullDefault|PullUp|PullDown|PullNone
drive dec? 10:2
debounce dec? 12:2
usage word 5:2 0 0 ResourceProducer|ResourceConsumer
source text 17:2
index dec? 16:1
vendor bytes 19:2 19:2+21:2
= 0x200 0 - Int
mode word 7:2 0 0 Level|Edge
polarity word 7:2 1 2 ActiveHigh|ActiveLow|ActiveBoth
sharing word 7:2 3 4 Exclusive|Shared|ExclusiveAndWake|SharedAndWake
= 0x201 0 - Io
restriction word 7:2 0 1 IoRestrictionNone|IoRestrictionInputOnly|IoRestrictionOutputOnly|IoRestrictionNoneAndPreserve
sharing word 7:2 3 4 Exclusive|Shared|ExclusiveAndWake|SharedAndWake
= 0x2ff 0 -
type hex 4:1
flags hex 7:2
= 0x8d 18 - PinFunction
pins list 9:2 12:2 2
function dec 7:2
sharing word 4:2 0 0 Exclusive|Shared
pull word 6:1 0 7 PullDefault|PullUp|PullDown|PullNone
source text 12:2
index dec? 11:1
vendor bytes 14:2 14:2+16:2
= 0x8e 12 0x300+5:1
~initiator word 6:1 0 0 ControllerInitiated|DeviceInitiated
usage word 6:1 1 1 ResourceProducer|ResourceConsumer
sharing word 6:1 2 2 Exclusive|Shared
source text 12+10:2
index dec? 4:1
= 0x301 18 - I2cSerialBusV2
address hex 16:2
speed dec 12:4
addressing word 7:2 0 0 AddressingMode7Bit|AddressingMode10Bit
lvr word? 7:2 8 15
vendor bytes 18 12+10:2
= 0x302 21 - SpiSerialBusV2
device dec 19:2
polarity word 7:2 1 1 PolarityLow|PolarityHigh
wires word 7:2 0 0 FourWireMode|ThreeWireMode
bits dec 16:1 % bits
speed dec 12:4
clock word 18:1 0 7 ClockPolarityLow|ClockPolarityHigh
phase word 17:1 0 7 ClockPhaseFirst|ClockPhaseSecond
vendor bytes 21 12+10:2
= 0x303 22 - UartSerialBusV2
speed dec 12:4
bits word 7:2 4 6 DataBitsFive|DataBitsSix|DataBitsSeven|DataBitsEight|DataBitsNine
stop word 7:2 2 3 StopBitsZero|StopBitsOne|StopBitsOnePlusHalf|StopBitsTwo
lines hex 21:1
endian word 7:2 7 7 LittleEndian|BigEndian
parity word 20:1 0 7 ParityTypeNone|ParityTypeEven|ParityTypeOdd|ParityTypeMark|ParityTypeSpace
flow word 7:2 0 1 FlowControlNone|FlowControlHardware|FlowControlXON
receive dec 16:2
transmit dec 18:2
vendor bytes 22 12+10:2
= 0x304 12 - Csi2Bus
phy word 7:2 0 1 C-PHY|D-PHY
port word 7:2 2 7
vendor bytes 12 12+10:2
= 0x3ff 0 - SerialBus
type hex 5:1
flags hex 7:2
data bytes 12 12+10:2
= 0x8f 20 - PinConfig
pins list 11:2 14:2 2
type word 6:1 0 7 Default|Bias Pull-up|Bias Pull-down|Bias Default|Bias Disable|Bias High Impedance|Bias Bus Hold|\
Drive Open Drain|Drive Open Source|Drive Push Pull|Drive Strength|Slew Rate|Input Debounce|Input Schmitt Trigger
value hex 7:4
sharing word 4:2 0 0 Exclusive|Shared
usage word 4:2 1 1 ResourceProducer|ResourceConsumer
source text 14:2
index dec? 13:1
vendor bytes 16:2 16:2+18:2
= 0x90 14 - PinGroup
label text 8:2 %
pins list 6:2 8:2 2
usage word 4:2 0 0 ResourceProducer|ResourceConsumer
vendor bytes 10:2 10:2+12:2
= 0x91 17 - PinGroupFunction
label text 11:2 %
function dec 6:2
sharing word 4:2 0 0 Exclusive|Shared
usage word 4:2 1 1 ResourceProducer|ResourceConsumer
source text 9:2
index dec? 8:1
vendor bytes 13:2 13:2+15:2
= 0x92 20 - PinGroupConfig
label text 14:2 %
type word 6:1 0 7 Default|Bias Pull-up|Bias Pull-down|Bias Default|Bias Disable|Bias High Impedance|Bias Bus Hold|\
Drive Open Drain|Drive Open Source|Drive Push Pull|Drive Strength|Slew Rate|Input Debounce|Input Schmitt Trigger
value hex 7:4
sharing word 4:2 0 0 Exclusive|Shared
usage word 4:2 1 1 ResourceProducer|ResourceConsumer
source text 12:2
index dec? 11:1
vendor bytes 16:2 16:2+18:2
= 0x93 12 - ClockInput
numerator dec 8:4
divisor dec 6:2
scale word 4:2 1 2 Hz|KHz|MHz
mode word 4:2 0 0
source text 13
index dec? 12:1
";

/// Descriptors of address spaces: the first byte, and the places of the lowest and the highest address, of what the
/// bridge adds to them, and of how many there are.
const SPACES: &str = "\
0x87 10:4 14:4 18:4 22:4
0x88 8:2 10:2 12:2 14:2
0x8A 14:8 22:8 30:8 38:8
0x8B 16:8 24:8 32:8 40:8";

/// Prints descriptors up to the end tag, each but the first after `between`.
pub(super) fn print_resources(bytes: &[u8], between: &str, out: &mut Out) {
    let mut end: usize = 0;
    for (offset, descriptor) in Descriptors::of(bytes) {
        let is_end = matches!(descriptor, [first, ..] if tag_of(*first) == END);
        if offset > 0 && !is_end {
            out.text(between);
        }
        if is_end {
            return out.text(if offset == 0 { "no resources" } else { "" });
        }
        print_descriptor(descriptor, out);
        end = offset.saturating_add(descriptor.len());
    }
    if end < bytes.len() {
        out.text(if end > 0 { between } else { "" });
        out.text("..");
    }
}

/// Whether bytes are descriptors, one at least and all of them known, up to an end tag, with which the bytes end.
pub fn is_template(bytes: &[u8]) -> bool {
    for (offset, descriptor) in Descriptors::of(bytes) {
        if matches!(descriptor, [0x79, _]) {
            return offset > 0 && offset.saturating_add(2) == bytes.len();
        }
        if descriptor_form(descriptor).is_none() {
            return false;
        }
    }
    false
}

/// What a descriptor is, unless its first byte is none that is known, or it is too short.
pub fn descriptor_form(descriptor: &[u8]) -> Option<Form> {
    form_of(*descriptor.first()? as u64, DESCRIPTORS, descriptor)
}

/// What a descriptor is: its first byte, without the length in it if that is small.
pub fn tag_of(first: u8) -> u8 {
    if first < 0x80 { first / 8 * 8 } else { first }
}

/// Where the descriptor ends that begins at an offset, if it ends in the bytes.
fn descriptor_end(bytes: &[u8], at: usize) -> Option<usize> {
    let first = bytes[at];
    let end = if first < 0x80 {
        at + 1 + first as usize % 8
    } else {
        let length = bytes.get(at + 1..at + 3)?;
        at + 3 + length[0] as usize + 256 * length[1] as usize
    };
    if end <= bytes.len() { Some(end) } else { None }
}

/// Descriptors, one after the other: the offset of each, and its bytes. It ends before one that goes past the bytes.
pub struct Descriptors<'a> {
    offset: usize,
    rest: &'a [u8],
}

impl<'a> Descriptors<'a> {
    /// The descriptors that bytes begin with.
    pub fn of(bytes: &'a [u8]) -> Descriptors<'a> {
        Descriptors { offset: 0, rest: bytes }
    }
}

impl<'a> Iterator for Descriptors<'a> {
    type Item = (usize, &'a [u8]);

    fn next(&mut self) -> Option<(usize, &'a [u8])> {
        if self.rest.is_empty() {
            return None;
        }
        let end = descriptor_end(self.rest, 0)?;
        let (descriptor, rest) = self.rest.split_at(end);
        let offset = self.offset;
        self.offset = offset.saturating_add(end);
        self.rest = rest;
        Some((offset, descriptor))
    }
}

/// The lowest and the highest address of an address space, what the bridge adds to them, and how many there are.
pub fn space_of(descriptor: &[u8]) -> [u64; 4] {
    let tag = descriptor.first().copied().unwrap_or(0);
    numbers_at(descriptor, name_of(tag as u64, SPACES))
}

/// The numbers at up to four places of a descriptor: 0 for what isn't there.
fn numbers_at(descriptor: &[u8], places: &str) -> [u64; 4] {
    let mut numbers = [0; 4];
    for (number, place) in numbers.iter_mut().zip(places.pieces(' ')) {
        *number = factor_of(place, descriptor).unwrap_or(0);
    }
    numbers
}

/// Prints a descriptor: one that isn't known by its first byte and the others.
pub fn print_descriptor(descriptor: &[u8], out: &mut Out) {
    if let Some(form) = descriptor_form(descriptor) {
        return print_form(&form, descriptor, out);
    }
    if let [first, rest @ ..] = descriptor {
        out.words("descriptor # ", &[*first as u64]);
        print_hex(rest, out);
    }
}
