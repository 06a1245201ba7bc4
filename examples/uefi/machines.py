#!/usr/bin/env python3
# SPDX-License-Identifier: MIT
"""machines.py PROCESSOR APP ACPI_VIEW ACPI_PACK: boots the application by UEFI's firmware on the machines below, takes
memory from the same machine while the application holds, and compares what it printed with what acpi_view prints of an
image of that memory, line by line, and with the memory map and the bytes of the MADT, the FADT and the DSDT. Then the
application has to power the machine off, if that can be; QEMU's monitor ends an Arm machine, which has no such
register.

machines.py aarch64 APP --faults: boots an application on one machine, on which it has to end with the fault of an
instruction of vector registers."""
import os
import re
import shutil
import struct
import subprocess
import sys
import tempfile
import time

sys.path.append(os.path.join(os.path.dirname(os.path.abspath(__file__)), '..'))
from plans import plans
from qemu import Ending, Memory, compared, lines_until, numbers, save

PROCESSOR, APP, VIEW, PACK = (sys.argv[1:] + [''])[:4]
OWN = re.compile(r'(map|region|rsdp|gicc|gicr|begin|plan|enabled|waits|end|powers)\b')
CODE, VARIABLES, NAME = {
    'x86_64': ('/usr/share/OVMF/OVMF_CODE_4M.fd', '/usr/share/OVMF/OVMF_VARS_4M.fd', 'BOOTX64.EFI'),
    'aarch64': ('/usr/share/AAVMF/AAVMF_CODE.fd', '/usr/share/AAVMF/AAVMF_VARS.fd', 'BOOTAA64.EFI'),
}[PROCESSOR]
MACHINES = {
    'x86_64': {'q35 4': ['-machine', 'q35', '-m', '256M', '-smp', '4']},
    'aarch64': {
        'virt GICv3 4': ['-machine', 'virt,gic-version=3', '-cpu', 'cortex-a57', '-m', '512M', '-smp', '4'],
        'virt GICv2 2': ['-machine', 'virt,gic-version=2', '-cpu', 'cortex-a57', '-m', '512M', '-smp', '2'],
    },
}[PROCESSOR]


def boot(args, folder):
    """What the application prints, the files of the memory of its regions, and, if it can power the machine off, QEMU's
    status and what the guest did."""
    monitor, qmp, disk = (os.path.join(folder, name) for name in ('monitor', 'qmp', 'disk'))
    os.makedirs(os.path.join(disk, 'EFI', 'BOOT'))
    shutil.copyfile(APP, os.path.join(disk, 'EFI', 'BOOT', NAME))
    shutil.copyfile(VARIABLES, os.path.join(folder, 'variables'))
    flash = 'if=pflash,format=raw,file='
    command = ['qemu-system-' + PROCESSOR, '-display', 'none', '-no-reboot', '-net', 'none', '-accel', 'tcg',
               '-serial', 'stdio', '-monitor', 'unix:%s,server=on,wait=off' % monitor,
               '-qmp', 'unix:%s,server=on' % qmp, '-drive', flash + CODE + ',readonly=on',
               '-drive', flash + os.path.join(folder, 'variables'),
               '-drive', 'if=none,id=disk,format=raw,file=fat:rw:' + disk, '-device', 'virtio-blk-pci,drive=disk']
    p = subprocess.Popen(command + args, stdin=subprocess.PIPE, stdout=subprocess.PIPE, stderr=subprocess.STDOUT)
    try:
        ending, ended = Ending(qmp), None
        lines, files = lines_until(p, b'end|fault .*', 120), []
        if lines and lines[-1] == 'end':
            lines = lines[lines.index('begin'):]
            files = save(monitor, [tuple(span) for span in numbers(lines, 'region')], folder)
            if any(l.startswith('plan off steps ') for l in lines):
                p.stdin.write(b'\n')
                p.stdin.flush()
                lines += lines_until(p, b'no such line', 60)
                ended = p.wait(60), ending.how()
        return lines, files, ended
    finally:
        p.kill()
        p.wait()


def regions(lines):
    """The regions that the map's types 9 and 10 make: joined, and from 0x1000 on."""
    answer = []
    for start, length in sorted(numbers([l for l in lines if re.search(r' type (9|10)$', l)], 'map')):
        if length and answer and sum(answer[-1]) == start:
            answer[-1][1] += length
        elif length:
            answer.append([start, length])
    return ['region %#x %#x' % (a, n) for a, n in answer]


def table(memory, rsdp, signature):
    """The first table of the XSDT, whose address the RSDP has at 24, that has the signature."""
    xsdt = memory.table_at(struct.unpack_from('<Q', memory.bytes_at(rsdp), 24)[0])
    tables = [memory.table_at(a) for a, in struct.iter_unpack('<Q', xsdt[36:])]
    return next(t for t in tables if t[:4] == signature)


def gic(madt):
    """The lines of the MADT's entries. Of GICC, type 11, ACPI Processor UID is at 8, Flags at 12 and MPIDR at 68; of
    GICR, type 14, the range is at 4 and its length at 12 (sections 5.2.12.14 and 17)."""
    processors, redistributors, at = [], [], 44
    while at < len(madt):
        if madt[at] == 11:
            uid, flags, mpidr = (struct.unpack_from(f, madt, at + k)[0] for f, k in (('<I', 8), ('<I', 12), ('<Q', 68)))
            processors.append('gicc uid %d mpidr %#x %s' % (uid, mpidr, 'enabled' if flags & 1 else 'disabled'))
        if madt[at] == 14:
            redistributors.append('gicr %#x %#x' % struct.unpack_from('<QI', madt, at + 4))
        at += madt[at + 1]
    return processors + redistributors


def power(lines, memory, rsdp):
    """The last lines: the plans, and that the machine is powered off, if there is a plan for that."""
    dsdt = memory.table_at(numbers(lines, 'dsdt')[0][0] - 36)
    right = plans(table(memory, rsdp, b'FACP'), dsdt)
    return right + ['end'] + ['powers off'] * ('plan off steps 1' in right)


def check(lines, files, ended, folder):
    """What is wrong with the lines, and how many of them were compared with acpi_view's."""
    if not files:
        return ['no dump: it said last %r' % lines[-4:]], 0
    memory, rsdp, mine = Memory(files), numbers(lines, 'rsdp')[0][0], [l for l in lines if not OWN.match(l)]
    wrong = compared(mine, (VIEW, PACK), files, os.path.join(folder, 'image'), ['rsdp', hex(rsdp)])
    if not any(l.startswith('table APIC ') for l in mine):
        wrong.append('no MADT: %r' % mine)
    last = power(lines, memory, rsdp)
    if ended != ((0, ['shutdown']) if last[-1] == 'powers off' else None):
        wrong.append('ended by %r' % (ended,))
    for right, words in ((regions(lines), 'region'), (gic(table(memory, rsdp, b'APIC')), 'gic[cr]'),
                         (last, '(plan|enabled|end|powers)')):
        got = [l for l in lines if re.match(words + r'\b', l)]
        if got != right:
            wrong.append('%s: %r, not %r' % (words, got, right))
    return wrong, len(mine)


def main():
    failed = 0
    machines = MACHINES if VIEW != '--faults' else dict(list(MACHINES.items())[:1])
    for name, args in machines.items():
        began = time.time()
        with tempfile.TemporaryDirectory() as folder:
            lines, files, ended = boot(args, folder)
            if VIEW == '--faults':
                wrong = [] if lines[-1:] == ['fault vectors'] else ['it said last %r' % lines[-4:]]
                what = 'the control, a library that uses vector registers: %r' % lines[-1:]
            else:
                wrong, compared = check(lines, files, ended, folder)
                what = '%d lines of tables, %d of the GIC' % (compared, len([l for l in lines if l.startswith('gic')]))
                what += ', powered off' if ended else ', not powered off'
        print('%s: %s, UEFI: %s (%.1f s)' % ('FAILED' if wrong else 'ok', name, what, time.time() - began))
        for w in wrong:
            print('   ', w)
        failed += bool(wrong)
    print('%d passed, %d failed' % (len(machines) - failed + 1, failed))  # the build was the first
    return 1 if failed else 0


sys.exit(main())
