#!/usr/bin/env python3
# SPDX-License-Identifier: MIT
"""machines.py KERNEL ACPI_VIEW ACPI_PACK GUEST [PART]: boots the kernel on every machine below, or on those whose
names have PART, takes memory from the same machine while the kernel holds, and compares what the kernel
printed with what acpi_view prints of an image of that memory, line by line, and with checks.py. Then the kernel has to
power the machine off, so that QEMU ends; on some machines it is told to reset them first. On one machine the tables
are those that GUEST, the program of `guest`, wrote, and the lines have to be those of the machine it wrote; on another
those of $RUST_GUEST, the program of the Rust package's examples/guest.rs, if it is named.

machines.py KERNEL --faults: boots a kernel on one machine, on which it has to end with an invalid opcode."""
import os
import re
import shutil
import struct
import subprocess
import sys
import tempfile
import time

sys.path.append(os.path.join(os.path.dirname(os.path.abspath(__file__)), '..'))
from checks import check, check_reset, rsdp_in
from qemu import Ending, Memory, change, lines_until, numbers, save

KERNEL, VIEW, PACK, GUEST, PART = (sys.argv[1:] + [''] * 4)[:5]
FILES = tempfile.TemporaryDirectory()
NUMA = ['-object', 'memory-backend-ram,id=m0,size=64M', '-object', 'memory-backend-ram,id=m1,size=64M',
        '-numa', 'node,nodeid=0,memdev=m0,cpus=0-1', '-numa', 'node,nodeid=1,memdev=m1,cpus=2-3']
# A second root of PCI, whose first bus is 32.
SECOND_ROOT = ['-device', 'pxb-pcie,id=root2,bus_nr=32,bus=pcie.0',
               '-device', 'pcie-root-port,id=port2,bus=root2,chassis=1']
# What the kernel says of the first PCI function: that of q35 is made by Intel, and pc has no MCFG.
Q35_ECAM, NO_MCFG = 'ecam 0xb0000000 vendor 0x8086', 'ecam: TableMissing MCFG'
# GRUB for a BIOS, and the program that makes a disc of it.
GRUB = '/usr/lib/grub/i386-pc'
HAS_GRUB = shutil.which('grub-mkrescue') and shutil.which('xorriso') and os.path.isdir(GRUB)
# Where the tables of the guest's program lie.
TABLES = 0x7000000
# What it says of the unit that remaps this function: that of the DMAR has a device scope of an endpoint for it, and
# registers of one page; that of the IVRS has an entry of type 2 for it.
UNITS = {'q35 intel-iommu': ['unit of 0:00.0 dmar 0xfed90000 0x1000'],
         'q35 amd-iommu': ['unit of 0:00.0 ivrs 0xfed80000 0x0']}


def own_table():
    """A table of our own, for -acpitable."""
    t = bytearray(b'OEM1' + struct.pack('<I', 113) + b'\1\0KERNELEXAMPLE ' + b'\1\0\0\0TEST\1\0\0\0' + bytes(range(77)))
    t = t[:113]
    t[9] = -sum(t) & 255  # Checksum
    path = os.path.join(FILES.name, 'oem1')
    with open(path, 'wb') as f:
        f.write(t)
    return path


def machines():
    all_of = {}
    for m in ('pc', 'q35'):
        for cpus in (1, 4, 255):
            for memory in ('128M', '3G'):
                all_of['%s %d %s' % (m, cpus, memory)] = ['-machine', m, '-m', memory, '-smp', str(cpus)]
        all_of[m + ' no hpet'] = ['-machine', m + ',hpet=off', '-m', '128M', '-smp', '4']
        all_of[m + ' two nodes'] = ['-machine', m, '-m', '128M', '-smp', '4'] + NUMA
        all_of[m + ' acpitable'] = ['-machine', m, '-m', '128M', '-smp', '2', '-acpitable', 'file=' + own_table()]
        all_of[m + ' 4 of 255 128M'] = ['-machine', m, '-m', '128M', '-smp', '4,maxcpus=255']
    all_of['q35 4 6G'] = ['-machine', 'q35', '-m', '6G', '-smp', '4']
    all_of['q35 two PCI roots'] = ['-machine', 'q35', '-m', '128M', '-smp', '2'] + SECOND_ROOT
    for unit in ('intel-iommu', 'amd-iommu'):
        all_of['q35 ' + unit] = ['-machine', 'q35', '-m', '128M', '-smp', '2', '-device', unit]
    return all_of


def other_loaders():
    """Machines on which the kernel is entered otherwise than by multiboot 1: by the start_info of PVH, and by GRUB's
    multiboot 2."""
    all_of = {'microvm by PVH': ('PVH', ['-machine', 'microvm,acpi=on', '-m', '128M', '-smp', '4'])}
    for m in ('pc', 'q35'):
        for loader in ('PVH', 'multiboot2'):
            all_of['%s by %s' % (m, loader)] = (loader, ['-machine', m, '-m', '128M', '-smp', '4'])
    all_of['q35 6G by multiboot2'] = ('multiboot2', ['-machine', 'q35', '-m', '6G', '-smp', '2'])
    return all_of


def resets():
    """Machines that the kernel is told to reset. The FADT of pc has no register for that."""
    size = ['-m', '128M', '-smp', '2']
    return {
        'pc that is not reset': ('multiboot', ['-machine', 'pc'] + size),
        'q35 reset': ('multiboot', ['-machine', 'q35'] + size),
        'q35 reset by multiboot2': ('multiboot2', ['-machine', 'q35'] + size),
        'microvm reset by PVH': ('PVH', ['-machine', 'microvm,acpi=on'] + size),
    }


def grub_image(words):
    """What QEMU boots so that GRUB loads the kernel by multiboot 2: a disc."""
    folder, disc = os.path.join(FILES.name, 'disc'), os.path.join(FILES.name, 'disc.iso')
    os.makedirs(os.path.join(folder, 'boot', 'grub'), exist_ok=True)
    shutil.copyfile(KERNEL, os.path.join(folder, 'boot', 'kernel'))
    with open(os.path.join(folder, 'boot', 'grub', 'grub.cfg'), 'w') as f:
        f.write('set timeout=0\nmultiboot2 /boot/kernel %s\nboot\n' % words)
    subprocess.run(['grub-mkrescue', '-d', GRUB, '-o', disc, folder], check=True, capture_output=True)
    return disc


def spans(lines):
    """The memory where tables may lie: the BIOS areas, what the map calls not free, below 4 GiB, and the page of the
    RSDP or its copy."""
    answer = [(0, 0x100010)]
    answer += [(a & -4096, 4096) for a, in numbers(lines, 'rsdp') if 0x101000 <= a < 0x200000]
    for line in lines:
        m = re.match(r'map (\S+) (\S+) type (\d+)', line)
        if m and m[3] != '1' and 0x100000 <= int(m[1], 16) < 1 << 32 and int(m[2], 16) <= 1 << 24:
            answer.append((int(m[1], 16), int(m[2], 16)))
    return answer


def boot(args, folder, writes=None, words='hold', kernel=KERNEL, more=(), loader='multiboot'):
    """What the kernel prints, the dumps, with those of more memory, if it is told to hold for these, and how the
    machine ends: QEMU's status, and what the guest did for that. Only a kernel that resets the machine may reboot."""
    by = {'multiboot': ['-kernel', kernel, '-append', words], 'PVH': ['-kernel', kernel + '.pvh', '-append', words]}
    monitor, gdb, qmp = (os.path.join(folder, name) for name in ('monitor', 'gdb', 'qmp'))
    # By one thread: 255 processors, each of which the firmware wakes, take twice as long with a thread each.
    command = ['qemu-system-x86_64', '-nodefaults', '-no-user-config', '-display', 'none',
               '-accel', 'tcg,thread=single', '-serial', 'stdio', '-monitor', 'unix:%s,server=on,wait=off' % monitor,
               '-qmp', 'unix:%s,server=on' % qmp, '-device', 'isa-debug-exit,iobase=0xf4,iosize=4'] + args
    command += [] if words == 'reset' else ['-no-reboot']
    command += by[loader] if loader in by else ['-cdrom', grub_image(words)]
    if writes is not None:
        command += ['-S', '-gdb', 'unix:%s,server=on,wait=off' % gdb]
    errors = open(os.path.join(folder, 'errors'), 'w')
    p = subprocess.Popen(command, stdin=subprocess.PIPE, stdout=subprocess.PIPE, stderr=errors)
    try:
        ending = Ending(qmp)
        if writes is not None:
            change(gdb, ENTRY, writes)
        lines, files = [], []
        if words != 'reset':
            lines = lines_until(p, b'end', 180)
        if p.poll() is None and lines and lines[-1] == 'end':
            files = save(monitor, spans(lines) + list(more), folder)
            p.stdin.write(b'\n')
            p.stdin.flush()
        lines += lines_until(p, b'no such line', 60)
        return lines, files, (p.wait(60), ending.how())
    finally:
        errors.close()
        if p.poll() is None:
            p.kill()
            p.wait()


def cases(lines, memory):
    """Wrong machines: what is written where, over the tables that a first boot showed."""
    at = {l.split()[1]: int(l.split()[2], 16) for l in lines if l.startswith('listed ')}
    rsdp = rsdp_in(memory)
    at['DSDT'] = int(next(l for l in lines if l.startswith('dsdt ')).split()[1], 16) - 36
    root = bytearray(memory.bytes_at(rsdp)[:20])
    at['RSDT'] = struct.unpack_from('<I', root, 16)[0]  # RsdtAddress

    def summed(signature, *changes):
        """A table with changes, and its sum right again over the length that it then has."""
        data = memory.table_at(at[signature])
        for offset, new in changes:
            data[offset:offset + len(new)] = new
        data = data[:struct.unpack_from('<I', data, 4)[0]]
        if len(data) > 9:
            data[9] = 0  # Checksum
            data[9] = -sum(data) & 255
        return [(at[signature], bytes(data))]

    moved = root[:16] + b'\0\0\0\xf0'  # RsdtAddress
    moved[8] = 0  # Checksum
    moved[8] = -sum(moved) & 255
    plain = {'RSDT address': [(rsdp, bytes(moved))], 'RSDP sum': [(rsdp + 8, bytes([root[8] ^ 1]))]}
    # BASE_ADDRESS, Base Address, PM1b_EVT_BLK, Flags, the AML, the first pointer: each byte makes the sum wrong.
    for s, offset in (('HPET', 50), ('MCFG', 44), ('FACP', 60), ('APIC', 40), ('DSDT', 40), ('RSDT', 36)):
        old = memory.table_at(at[s])[offset]
        plain[s + ' sum'] = [(at[s] + offset, bytes([old ^ 0x55]))]
    for s in ('HPET', 'APIC', 'DSDT', 'RSDT'):
        plain[s + ' signature'] = [(at[s], b'\xc8PET')]
        # Length
        plain[s + ' length huge'] = [(at[s] + 4, b'\xff\xff\xff\x7f')]
        plain[s + ' length 3'] = [(at[s] + 4, b'\3\0\0\0')]
    plain['APIC OEM id'] = [(at['APIC'] + 10, b'\xff')]  # OEMID
    # Length of a table is at 4. MADT: Length of the first entry at 45. FADT: DSDT at 40, X_DSDT at 140. MCFG: Base
    # Address of the first entry at 44, its Start Bus Number at 54 and End Bus Number at 55. RSDT: pointers from 36 on.
    plain.update({
        'APIC entry length 0, sum': summed('APIC', (45, b'\0')),
        'APIC entry past the end, sum': summed('APIC', (45, b'\xff')),
        'APIC cut, sum': summed('APIC', (4, b'\x2f\0\0\0')),
        'DSDT at 0xf0000000, sum': summed('FACP', (40, b'\0\0\0\xf0'), (140, b'\0\0\0\xf0\0\0\0\0')),
        'DSDT at 0, sum': summed('FACP', (40, b'\0\0\0\0'), (140, bytes(8))),
        'DSDT at 2^64-8, sum': summed('FACP', (140, b'\xf8' + b'\xff' * 7)),
        'MCFG base 2^64-1, sum': summed('MCFG', (44, b'\xff' * 8)),
        'MCFG buses 255..0, sum': summed('MCFG', (54, b'\xff\0')),
        'MCFG cut, sum': summed('MCFG', (4, b'\x2d\0\0\0')),
        'HPET cut, sum': summed('HPET', (4, b'\x30\0\0\0')),
        'RSDT of odd length, sum': summed('RSDT', (4, b'\x2d\0\0\0')),
        'RSDT to nowhere, sum': summed('RSDT', (36, b'\xfc\xff\xff\xff')),
        'RSDT to the null page, sum': summed('RSDT', (40, b'\0\0\0\0')),
    })
    return {name: {'writes': writes, 'words': 'hold strict'} for name, writes in plain.items()}


def accepted(lines, memory):
    """Machines on which a kernel that isn't told to be strict takes a table with a wrong sum, and one with a wrong OEMID,
    at 10, too: what is written, and the line that there is besides those of the right table."""
    at = {l.split()[1]: int(l.split()[2], 16) for l in lines if l.startswith('listed ')}
    return {'%s %s accepted' % (signature, error): {
        'writes': [(at[signature] + offset, bytes([memory.bytes_at(at[signature] + offset)[0] ^ 0x80]))],
        'besides': 'accepted %s %#x: SdtInvalid%s %s' % (signature, at[signature], error, signature)}
        for signature, error, offset in (('HPET', 'Checksum', 9), ('APIC', 'OemId', 10))}


def restore(files, writes):
    """Makes the saved bytes as they were before these writes, each of which turned bit 7."""
    for start, name in zip(files[::2], files[1::2]):
        for address, data in writes:
            if 0 <= address - int(start, 16) < os.path.getsize(name):
                with open(name, 'r+b') as f:
                    f.seek(address - int(start, 16))
                    f.write(bytes(x ^ 0x80 for x in data))


# What the kernel says of the first PCI function if it isn't Q35_ECAM.
ECAM = {
    'MCFG sum': NO_MCFG,
    'MCFG base 2^64-1, sum': 'ecam 0xffffffffffffffff not mapped',
    'MCFG buses 255..0, sum': 'ecam: NoSuchFunction',
    'MCFG cut, sum': 'ecam: NoSuchFunction',  # it ends one byte after its fixed fields, so it has no entry
    'RSDT of odd length, sum': NO_MCFG,  # it ends within the third pointer, and MCFG has the fourth
}


def told(lines, memory):
    """Machines whose kernel is told of an RSDP, or whose path looks as if it were. The copy lies in reserved memory
    that no search looks at, after the tables."""
    rsdp = rsdp_in(memory)
    root = memory.bytes_at(rsdp)[:36]
    spans = [[int(x, 16) for x in l.split()[1:3]] for l in lines if l.startswith('map ') and l.endswith(' type 2')]
    table = int(next(l for l in lines if l.startswith('listed ')).split()[2], 16)
    copy = next(a + n for a, n in spans if a <= table < a + n) - 4096
    gone, moved, word = (rsdp, bytes(8)), (copy, root), ' rsdp=%#x' % copy
    like = os.path.join(FILES.name, 'rsdp=%#x' % copy)
    shutil.copyfile(KERNEL, like)
    return {
        'no RSDP': {'writes': [gone]},
        'RSDP elsewhere, told': {'writes': [gone, moved], 'words': 'hold' + word, 'told': copy},
        'RSDP elsewhere, told first': {'writes': [gone, moved], 'words': word + ' hold', 'told': copy},
        'RSDP elsewhere, told, wrong sum': {
            'writes': [gone, (copy, root[:8] + bytes([root[8] ^ 1]) + root[9:])], 'words': 'hold' + word, 'told': copy},
        'RSDP elsewhere, told another address': {
            'writes': [gone, moved], 'words': 'hold rsdp=%#x' % (copy + 16), 'told': copy + 16},
        'RSDP elsewhere, not told': {'writes': [gone, moved]},
        'RSDP elsewhere, kernel of that name': {'writes': [gone, moved], 'kernel': like},
        'RSDP found, told another address': {'writes': [moved], 'words': 'hold rsdp=%#x' % (copy + 16)},
    }


def written(memory, name, command, lines):
    """A machine whose kernel is told of the tables that a guest's program wrote, which lie in free memory."""
    path = os.path.join(FILES.name, name)
    subprocess.run(command + [path], check=True, stdout=subprocess.DEVNULL)
    return {'writes': [(rsdp_in(memory), bytes(8))], 'words': 'hold rsdp=%#x' % TABLES, 'told': TABLES,
            'args': ['-device', 'loader,file=%s,addr=%#x,force-raw=on' % (path, TABLES)],
            'more': [(TABLES, os.path.getsize(path))], 'asked': lines.splitlines()}


def asked(memory):
    """The machines of the programs that write a guest's tables."""
    examples = os.path.join(os.path.dirname(os.path.abspath(__file__)), '..')
    lines = subprocess.run([os.path.join(examples, 'guest', 'lines'), '4'], check=True, capture_output=True, text=True)
    all_of = {'the tables of guest.c': written(memory, 'guest', [GUEST, '4'], lines.stdout)}
    rust = os.environ.get('RUST_GUEST')
    if rust:
        with open(os.path.join(examples, '..', 'bindings', 'rust', 'examples', 'guest.lines')) as f:
            all_of['the tables of guest.rs'] = written(memory, 'guest_rs', [rust], f.read())
    return all_of


def tried(name, machine, ecam, writes=None, words='hold', kernel=KERNEL, told=None, args=(), more=(), asked=None,
          loader='multiboot', besides=None):
    """Boots a machine, prints whether all is right, and answers that with the lines and the memory."""
    with tempfile.TemporaryDirectory() as folder:
        began = time.time()
        lines, files = [], []
        try:
            lines, files, ended = boot(machine + list(args), folder, writes, words, kernel, more, loader)
            if words == 'reset':
                wrong = check_reset(lines, ended)
            elif besides:
                restore(files, writes)
                wrong = [] if lines.count(besides) == 1 else ['not once: ' + besides]
                wrong += check([l for l in lines if l != besides], files, ended, folder, (VIEW, PACK), IMAGE, ecam)
            else:
                wrong = check(lines, files, ended, folder, (VIEW, PACK), IMAGE, ecam, UNITS.get(name, ()), loader, told,
                              asked)
        except Exception as error:  # QEMU didn't start, or a line can't be read: the other machines still run
            wrong = [repr(error)]
        depth = max([int(l.split()[3]) for l in lines if l.startswith('call')] or [0])
        print('%s: %s (%.1f s, stack %d)' % ('FAILED' if wrong else 'ok', name, time.time() - began, depth), flush=True)
        for w in wrong:
            print('   ', w)
        return not wrong, lines, Memory(files)


def symbol(name):
    for line in subprocess.run(['nm', KERNEL], capture_output=True, text=True).stdout.splitlines():
        if line.endswith(' ' + name):
            return int(line.split()[0], 16)
    sys.exit('no %s in %s' % (name, KERNEL))


ENTRY, IMAGE = symbol('start'), (symbol('load_start'), symbol('bss_end'))


def faults():
    """Whether a kernel whose library uses SSE ends as boot.s has it: by fault 6, with the status 37."""
    with tempfile.TemporaryDirectory() as folder:
        lines, _, ended = boot(machines()['q35 4 128M'], folder)
    good = ended == (37, []) and lines[-1].startswith('fault 6 ')
    print('%s: the control, a library that uses SSE: %s' % ('ok' if good else 'FAILED', lines[-1:]))
    print('%d passed, %d failed' % (1 + good, not good))  # the build was the first
    return 0 if good else 1


def main():
    if VIEW == '--faults':
        return faults()
    passed = failed = 0
    changed = {}
    for name, args in machines().items():
        if PART in name:
            good, lines, memory = tried(name, args, Q35_ECAM if name.startswith('q35') else NO_MCFG)
            passed, failed = passed + good, failed + (not good)
            if good and name == 'q35 4 128M':
                changed = {**cases(lines, memory), **accepted(lines, memory), **told(lines, memory), **asked(memory)}
    for name, (loader, args) in other_loaders().items():
        if loader == 'multiboot2' and not HAS_GRUB:
            print('skipped: %s, since grub-mkrescue, xorriso and %s are not all there' % (name, GRUB))
        elif PART in name:
            good, _, _ = tried(name, args, Q35_ECAM if name.startswith('q35') else NO_MCFG, loader=loader)
            passed, failed = passed + good, failed + (not good)
    for name, (loader, args) in resets().items():
        if PART in name and (loader != 'multiboot2' or HAS_GRUB):
            good, _, _ = tried(name, args, None, words='reset', loader=loader)
            passed, failed = passed + good, failed + (not good)
    for name, change in changed.items():
        good, _, _ = tried('q35 with ' + name, machines()['q35 4 128M'], ECAM.get(name, Q35_ECAM), **change)
        passed, failed = passed + good, failed + (not good)
    print('%d passed, %d failed' % (passed + 1, failed))  # the build was the first
    return 1 if failed else 0


sys.exit(main())
