//! What the crate `acpi` has of types besides, in plain Rust: a slice's functions by `Deref`, loops over references, and
//! `Debug`.
use crate::alloc::Allocator;
use crate::platform::ProcessorInfo;
use crate::platform::interrupt::{Apic, InterruptModel};
use crate::{ManagedSlice, PhysicalMapping, PhysicalRecord, PlatformInfo, handler::Lender};
use core::fmt;
use core::ops::{Deref, DerefMut};
use core::slice::{Iter, IterMut};

impl<T, A: Allocator> Deref for ManagedSlice<T, A> {
    type Target = [T];

    fn deref(&self) -> &[T] {
        self.as_slice()
    }
}

impl<T, A: Allocator> DerefMut for ManagedSlice<T, A> {
    fn deref_mut(&mut self) -> &mut [T] {
        self.as_mut_slice()
    }
}

impl<'a, T, A: Allocator> IntoIterator for &'a ManagedSlice<T, A> {
    type Item = &'a T;
    type IntoIter = Iter<'a, T>;

    fn into_iter(self) -> Iter<'a, T> {
        self.as_slice().iter()
    }
}

impl<'a, T, A: Allocator> IntoIterator for &'a mut ManagedSlice<T, A> {
    type Item = &'a mut T;
    type IntoIter = IterMut<'a, T>;

    fn into_iter(self) -> IterMut<'a, T> {
        self.as_mut_slice().iter_mut()
    }
}

impl<T: fmt::Debug, A: Allocator> fmt::Debug for ManagedSlice<T, A> {
    fn fmt(&self, f: &mut fmt::Formatter<'_>) -> fmt::Result {
        self.as_slice().fmt(f)
    }
}

impl<A: Allocator> fmt::Debug for Apic<A> {
    fn fmt(&self, f: &mut fmt::Formatter<'_>) -> fmt::Result {
        f.debug_struct("Apic")
            .field("local_apic_address", &self.local_apic_address)
            .field("io_apics", &self.io_apics)
            .field("local_apic_nmi_lines", &self.local_apic_nmi_lines)
            .field("interrupt_source_overrides", &self.interrupt_source_overrides)
            .field("nmi_sources", &self.nmi_sources)
            .field("also_has_legacy_pics", &self.also_has_legacy_pics)
            .finish()
    }
}

impl<A: Allocator> fmt::Debug for InterruptModel<A> {
    fn fmt(&self, f: &mut fmt::Formatter<'_>) -> fmt::Result {
        match self {
            InterruptModel::Unknown => f.write_str("Unknown"),
            InterruptModel::Apic(apic) => f.debug_tuple("Apic").field(apic).finish(),
        }
    }
}

impl<A: Allocator> fmt::Debug for ProcessorInfo<A> {
    fn fmt(&self, f: &mut fmt::Formatter<'_>) -> fmt::Result {
        f.debug_struct("ProcessorInfo")
            .field("boot_processor", &self.boot_processor)
            .field("application_processors", &self.application_processors)
            .finish()
    }
}

impl<A: Allocator> fmt::Debug for PlatformInfo<A> {
    fn fmt(&self, f: &mut fmt::Formatter<'_>) -> fmt::Result {
        f.debug_struct("PlatformInfo")
            .field("power_profile", &self.power_profile)
            .field("interrupt_model", &self.interrupt_model)
            .field("processor_info", &self.processor_info)
            .field("pm_timer", &self.pm_timer)
            .finish()
    }
}

impl<H: Lender, T: PhysicalRecord + fmt::Debug> fmt::Debug for PhysicalMapping<'_, H, T> {
    fn fmt(&self, f: &mut fmt::Formatter<'_>) -> fmt::Result {
        f.debug_struct("PhysicalMapping")
            .field("physical_start", &self.physical_start())
            .field("region_length", &self.region_length())
            .field("value", self.get())
            .finish()
    }
}
