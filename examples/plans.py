# SPDX-License-Identifier: MIT
"""The lines that c/power.c prints of the plans, computed anew from the bytes of the tables."""
import re
import struct


def sleep_type(aml, state):
    """The first number of the package that \\_S0_ to \\_S5_ is (section 7.4.2): after its name come PackageOp,
    PkgLength of one byte, how many elements it has, and the first, which is ZeroOp, OneOp or BytePrefix with a byte."""
    m = re.search(rb'\x08\\?_S%d_\x12[\0-\x3f].(?:([\0\1])|\x0a(.))' % state, aml, re.S)
    return (m[1] or m[2])[0] if m else None


def steps(name, plan):
    """The lines of a plan: an error, or steps of a kind, an address space, an address, a width, a mask and a value."""
    if isinstance(plan, str):
        return ['plan %s: %s' % (name, plan)]
    text = 'plan ' + name + ' %s space %d address 0x%x width %d mask 0x%x value 0x%x'
    return ['plan %s steps %d' % (name, len(plan))] + [text % step for step in plan]


def power_off(fadt, dsdt, unread):
    """What powers the machine off. Of the FADT (section 5.2.9) PM1a_CNT_BLK is at 64, SLEEP_CONTROL_REG, of reduced
    hardware, at 244. QEMU's machines have no PM1b_CNT_BLK."""
    kind = sleep_type(dsdt, 5)
    if kind is None:
        return unread or 'SleepStateAbsent'
    if not has_flag(fadt, 20):
        return [('write', 1, struct.unpack_from('<I', fadt, 64)[0], 16, 0x3c00, kind << 10 | 0x2000)]
    space, at = struct.unpack_from('<BxxxQ', fadt, 244)
    return [('write', space, at, 8, 0x3c, kind << 2 | 0x20)] if at else 'NoRegister'


def has_flag(fadt, bit):
    """Whether a bit of Flags, at 112, is set: 10 is RESET_REG_SUP, and 20 HW_REDUCED_ACPI."""
    return struct.unpack_from('<I', fadt, 112)[0] >> bit & 1


def plans(fadt, dsdt, unread=None):
    """The lines, by a FADT's bytes and those of its DSDT. Without the first no plan can be made, without the second
    none that powers off: `unread` is then why. Of the FADT SMI_CMD is at 48, ACPI_ENABLE at 52, ACPI_DISABLE at 53,
    RESET_REG at 116 and RESET_VALUE at 128."""
    if not fadt:
        return [line for name in ('off', 'reset', 'enable') for line in steps(name, unread)]
    fadt = bytes(fadt) + bytes(268)
    command, value, back = struct.unpack_from('<IBB', fadt, 48)
    control = struct.unpack_from('<I', fadt, 64)[0]
    space, at = struct.unpack_from('<BxxxQ', fadt, 116)
    enable = [('write', 1, command, 8, 0xff, value), ('wait', 1, control, 16, 1, 1)]
    enable = enable if command and (value or back) and not has_flag(fadt, 20) else []
    reset = [('write', space, at, 8, 0xff, fadt[128])] if has_flag(fadt, 10) else 'NoReset'
    lines = steps('off', power_off(fadt, dsdt, unread)) + steps('reset', reset) + steps('enable', enable)
    return lines + ['enabled by steps %d' % len(enable)]
