//! The PC: its ports, a serial port, and the memory that the loader's map lists. All that is unsafe is here.
use core::arch::asm;
use core::fmt;
use core::slice;
use zacpi::address::AddressSpace;
use zacpi::sleep::{Plan, PlanStep, StepKind};
use zacpi::{AcpiError, AcpiHandler, AcpiResult};

core::arch::global_asm!(include_str!("boot.s"), options(att_syntax));

/// What the loader passes (`hvm_start_info` of Xen's PVH).
#[repr(C)]
pub struct StartInfo {
    magic: u32,
    version: u32,
    flags: u32,
    module_count: u32,
    modules: u64,
    command_line: u64,
    /// The physical address of the RSDP, or 0.
    pub rsdp: u64,
    map: u64,
    map_count: u32,
    reserved: u32,
}

/// A range of the loader's map.
#[repr(C)]
struct MapEntry {
    address: u64,
    length: u64,
    kind: u32,
    reserved: u32,
}

/// Memory, as far as the loader's map lists it below 4 GiB, where all is mapped.
pub struct Memory<'i> {
    map: &'i [MapEntry],
}

impl<'i> Memory<'i> {
    /// The memory that this lists.
    pub fn new(info: &'i StartInfo) -> Self {
        // SAFETY: the loader put so many entries there, which nobody writes.
        Memory { map: unsafe { slice::from_raw_parts(info.map as *const MapEntry, info.map_count as usize) } }
    }
}

impl AcpiHandler for Memory<'_> {
    fn map_physical_region(&self, address: u64, size: usize) -> AcpiResult<&[u8]> {
        let end = address.checked_add(size as u64).filter(|end| *end <= 1 << 32).ok_or(AcpiError::MapFailed)?;
        let is_listed = |entry: &MapEntry| entry.address <= address && end - entry.address <= entry.length;
        if address == 0 || !self.map.iter().any(is_listed) {
            return Err(AcpiError::MapFailed);
        }
        // SAFETY: it is memory, it is mapped where it is, and nobody writes to the tables.
        Ok(unsafe { slice::from_raw_parts(address as *const u8, size) })
    }

    fn unmap_physical_region(&self, _: u64, _: usize, _: usize) {}
}

/// Takes the steps of a plan, whose registers are ports.
pub fn take(plan: &Plan) {
    for step in [plan.first, plan.second].into_iter().flatten() {
        if step.register.address_space == AddressSpace::SystemIo {
            take_step(&step);
        }
    }
}

fn take_step(step: &PlanStep) {
    let (port, is_wide) = (step.register.address as u16, step.width == 16);
    let read = || if is_wide { read_word(port) } else { read_byte(port) };
    match step.kind {
        StepKind::Wait => while read() & step.mask != step.value {},
        StepKind::Write => {
            let value = read() & !step.mask | step.value;
            if is_wide { write_word(port, value as u16) } else { write_byte(port, value as u8) }
        }
    }
}

fn read_byte(port: u16) -> u32 {
    let value: u8;
    // SAFETY: reading a port writes no memory.
    unsafe { asm!("in al, dx", out("al") value, in("dx") port, options(nomem, nostack)) };
    value.into()
}

fn read_word(port: u16) -> u32 {
    let value: u16;
    // SAFETY: as above.
    unsafe { asm!("in ax, dx", out("ax") value, in("dx") port, options(nomem, nostack)) };
    value.into()
}

fn write_byte(port: u16, value: u8) {
    // SAFETY: the ports that are written are the serial port's and those of plans.
    unsafe { asm!("out dx, al", in("dx") port, in("al") value, options(nomem, nostack)) };
}

fn write_word(port: u16, value: u16) {
    // SAFETY: as above.
    unsafe { asm!("out dx, ax", in("dx") port, in("ax") value, options(nomem, nostack)) };
}

/// The first serial port.
pub struct Serial;

impl fmt::Write for Serial {
    fn write_str(&mut self, text: &str) -> fmt::Result {
        for byte in text.bytes() {
            while read_byte(0x3f8 + 5) & 0x20 == 0 {}
            write_byte(0x3f8, byte);
        }
        Ok(())
    }
}

/// Stops the processor.
pub fn halt() -> ! {
    loop {
        // SAFETY: it waits.
        unsafe { asm!("cli", "hlt", options(nomem, nostack)) };
    }
}

/// Where `boot.s` goes to.
#[unsafe(no_mangle)]
extern "C" fn start(info: &StartInfo) -> ! {
    crate::run(info);
    halt()
}

/// What code for Linux finds in its C library, and for a target without an operating system in core.
#[cfg(target_os = "linux")]
mod linux {
    use core::arch::asm;

    /// What core was built to call where a panic unwinds: nothing does here.
    #[unsafe(no_mangle)]
    extern "C" fn rust_eh_personality() {}

    #[unsafe(no_mangle)]
    unsafe extern "C" fn memcpy(to: *mut u8, from: *const u8, count: usize) -> *mut u8 {
        // SAFETY: the caller passes `count` bytes at each.
        unsafe { asm!("rep movsb", inout("rcx") count => _, inout("rdi") to => _, inout("rsi") from => _) };
        to
    }

    #[unsafe(no_mangle)]
    unsafe extern "C" fn memset(to: *mut u8, byte: i32, count: usize) -> *mut u8 {
        // SAFETY: the caller passes `count` bytes.
        unsafe { asm!("rep stosb", inout("rcx") count => _, inout("rdi") to => _, in("al") byte as u8) };
        to
    }

    #[unsafe(no_mangle)]
    unsafe extern "C" fn memcmp(one: *const u8, other: *const u8, count: usize) -> i32 {
        for at in 0..count {
            // SAFETY: the caller passes `count` bytes at each.
            let (a, b) = unsafe { (one.add(at).read_volatile(), other.add(at).read_volatile()) };
            if a != b {
                return i32::from(a) - i32::from(b);
            }
        }
        0
    }

    #[unsafe(no_mangle)]
    unsafe extern "C" fn bcmp(one: *const u8, other: *const u8, count: usize) -> i32 {
        // SAFETY: as of `memcmp`.
        unsafe { memcmp(one, other, count) }
    }
}
