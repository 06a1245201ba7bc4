#!/usr/bin/env python3
# SPDX-License-Identifier: MIT
"""machines.py IMAGE ACPI_DUMP [PART]: boots copies of the stick's image in QEMU by each firmware, or on the machines
whose names have PART, turns the pages, and compares: the tables on the screen, and the machine, with what acpi_dump
prints of the text that is on the stick then; the bytes in the text with the machine's memory; the plans with those
worked out of these bytes; and what else is on the stick with the image. One machine has wrong tables, whose faults have
to be on the screen. Each has to power itself off. Then a BIOS boots a stick after each of the edits of edits.py, and
one that keeps nothing: BIOS.TXT has this machine's tables then, or no sector is written and the screen has why. The
last line is `N passed, M failed`."""
import os
import re
import select
import shutil
import struct
import subprocess
import sys
import tempfile
import time

sys.path.append(os.path.join(os.path.dirname(os.path.abspath(__file__)), '..'))
from edits import EDITS, OLD, PARTITION, SECTOR, Forgetful, Volume
from plans import plans
from qemu import Ending, Memory, change, save

IMAGE, DUMP, PART = (sys.argv[1:] + ['', ''])[:3]
FILES = tempfile.TemporaryDirectory()
PROMPT = rb'-- a key shows the next page[^\n]*--'
# What the firmware sends to a terminal beside text.
CONTROLS = re.compile(rb'\x1b(\[[0-9;=?]*[A-Za-z]|c)|\r')
# The names of facts that the screen has as acpi_dump --summary has them.
FACTS = re.compile(r'(profile|processors?|interrupts|I/O APIC|PM timer|HPET|PCI segment|memory domain|redistributors|'
                   r'ITS)\b')
WIDTH = 21  # the column of what a name means
FLASH = 'if=pflash,format=raw,%s=on,file=%s'
NUMA = ['-object', 'memory-backend-ram,id=m0,size=128M', '-object', 'memory-backend-ram,id=m1,size=128M',
        '-numa', 'node,nodeid=0,memdev=m0,cpus=0-1', '-numa', 'node,nodeid=1,memdev=m1,cpus=2-3']


def bios(machine):
    return ['qemu-system-x86_64', '-machine', machine + ',graphics=off', '-vga', 'std', '-m', '256M', '-smp', '4']


def uefi(program, code, variables):
    flash = [FLASH % ('readonly', code), '-drive', FLASH % ('snapshot', variables)]
    return [program, '-m', '512M', '-smp', '4', '-drive'] + flash


def table(signature, body, oem_id=b'ZACPI '):
    """A file with a table for -acpitable; QEMU makes its sum right."""
    header = signature + struct.pack('<IBB6s8sI4sI', 36 + len(body), 1, 0, oem_id, b'STICK   ', 1, b'TEST', 1)
    path = os.path.join(FILES.name, signature.decode())
    with open(path, 'wb') as file:
        file.write(header + body)
    return ['-acpitable', 'file=' + path]


def wrong_tables():
    """An SRAT with domain 7 for 16 MiB from 4 GiB on (type 1, 40 bytes, enabled; section 5.2.16.2) and then an entry of
    Length 0; a table whose OEMID isn't UTF-8; and an MSDM."""
    memory = struct.pack('<BBIHQQIIQ', 1, 40, 7, 0, 1 << 32, 16 << 20, 0, 1, 0)
    return (table(b'SRAT', struct.pack('<IQ', 1, 0) + memory + b'\1\0') + table(b'OEM1', b'body', b'\xff\xfeOEM ') +
            table(b'MSDM', struct.pack('<5I', 1, 0, 1, 0, 29) + b'AAAAA-BBBBB-CCCCC-DDDDD-EEEEE'))


def wrong_sums(read):
    """What makes the sums of the HPET and of the RSDT wrong, as writes: a byte that nobody reads, of OEM Revision, at
    24. The RSDP is at a multiple of 16 in the BIOS area, with the RSDT's address at 16 (section 5.2.5.3)."""
    area = read(0xe0000, 0x20000)
    found = [at for at in range(0, len(area), 16) if area[at:at + 8] == b'RSD PTR ']
    rsdp = next(at for at in found if not sum(area[at:at + 20]) & 255)
    root = struct.unpack_from('<I', area, rsdp + 16)[0]
    length = struct.unpack('<I', read(root + 4, 4))[0]
    members = [p for p, in struct.iter_unpack('<I', read(root + 36, length - 36))]
    hpet = next(p for p in members if read(p, 4) == b'HPET')
    return [(at + 24, bytes([read(at + 24, 1)[0] ^ 0x80])) for at in (root, hpet)]


OVMF = uefi('qemu-system-x86_64', '/usr/share/OVMF/OVMF_CODE_4M.fd', '/usr/share/OVMF/OVMF_VARS_4M.fd')
AAVMF = uefi('qemu-system-aarch64', '/usr/share/AAVMF/AAVMF_CODE.fd', '/usr/share/AAVMF/AAVMF_VARS.fd')
NO_FAULT = 'The library finds no fault.'
# Of each the command, the file that it writes, and lines that the screen has to have; the first page of one machine has
# to go by itself. The BIOS machines have one stick: texts after the first are shorter.
MACHINES = {
    'q35, SeaBIOS': (bios('q35') + NUMA, 'BIOS.TXT', ['memory domain 1      128 MiB from 0x8000000 on', NO_FAULT]),
    'pc with wrong tables, SeaBIOS': (bios('pc') + wrong_tables(), 'BIOS.TXT', [
        'memory domain 7      16 MiB from 0x100000000 on', 'OEM1 at OEM1+0x0: SdtInvalidOemId',
        'entry of type 1 of SRAT at SRAT+0x58: InvalidSrat InvalidEntryLength', 'faults that the library finds: 2']),
    'pc with wrong sums, SeaBIOS': (bios('pc'), 'BIOS.TXT', [
        'RSDT at RSDT+0x0: SdtInvalidChecksum', 'HPET at HPET+0x0: SdtInvalidChecksum',
        'faults that the library finds: 2']),
    'q35, OVMF': (OVMF + ['-machine', 'q35'], 'UEFI.TXT', [NO_FAULT]),
    'virt, AAVMF': (AAVMF + ['-machine', 'virt,gic-version=3', '-cpu', 'cortex-a57'], 'UEFI.TXT', [
        'timer EL1 virtual    interrupt 27, level, active high', 'power                by PSCI, HVC', NO_FAULT]),
}
GOES_ON = 'q35, SeaBIOS'
NOT_WRITTEN = "BIOS.TXT isn't written, so don't send it: "
# What is written into the machine's memory when its BIOS starts what the first sector has.
WRITES = {'pc with wrong sums, SeaBIOS': (0x7c00, wrong_sums)}


class Guest:
    """A machine that boots from a stick. Each page ends with a prompt."""

    def __init__(self, command, stick, folder, writes):
        self.monitor, qmp, gdb = (os.path.join(folder, name) for name in ('monitor', 'qmp', 'gdb'))
        command = command + ['-S', '-gdb', 'unix:%s,server=on,wait=off' % gdb] * bool(writes)
        self.errors = open(os.path.join(folder, 'errors'), 'w+')
        self.process = subprocess.Popen(
            command + ['-accel', 'tcg', '-nodefaults', '-no-user-config', '-display', 'none', '-no-reboot',
                       '-serial', 'stdio', '-monitor', 'unix:%s,server=on,wait=off' % self.monitor,
                       '-qmp', 'unix:%s,server=on' % qmp, '-drive', 'if=none,id=stick,format=raw,file=' + stick,
                       '-device', 'qemu-xhci', '-device', 'usb-storage,drive=stick,removable=on'],
            stdin=subprocess.PIPE, stdout=subprocess.PIPE, stderr=self.errors)
        self.said, self.ending = b'', Ending(qmp)
        if writes:
            change(gdb, *writes)

    def page(self):
        """The lines of the next page, or of all that comes before the end."""
        last = time.time() + 300
        while not re.search(PROMPT, self.said):
            more = b''
            if select.select([self.process.stdout], [], [], max(0, last - time.time()))[0]:
                more = os.read(self.process.stdout.fileno(), 65536)
            if not more:
                break
            self.said = CONTROLS.sub(b'', self.said + more)
        page, *rest = re.split(PROMPT, self.said, maxsplit=1)
        self.said = b''.join(rest)
        return joined(page.decode('latin1').splitlines()), bool(rest)

    def press(self):
        self.process.stdin.write(b' ')
        self.process.stdin.flush()

    def ended(self):
        return self.process.wait(300), self.ending.how()

    def stop(self):
        if self.process.poll() is None:
            self.process.kill()
            self.process.wait()
        self.errors.close()


def joined(lines):
    """Lines without blanks at their ends, those that were too long for a screen whole again."""
    answer = []
    for line in (line.rstrip() for line in lines):
        if answer and line.startswith(' ' * WIDTH):
            answer[-1] += ' ' + line.strip()
        elif line:
            answer.append(line)
    return answer


def listed(lines):
    """The lines of tables on the screen: signature, address, length and status."""
    found = [re.fullmatch(r'(\S{4}) ([0-9a-f]{16}) ([0-9a-f]{8}) (\w+)(, not saved.*)?', line) for line in lines]
    return [m.groups() for m in found if m]


def boot(command, stick, folder, writes=None, goes_on=False):
    """The lines of all pages, the memory of the tables that they list, and how the machine ended."""
    guest = Guest(command, stick, folder, writes)
    try:
        lines, files, has_prompt = [], [], True
        while has_prompt:
            more, has_prompt = guest.page()
            lines += more
            if listed(more):
                files += save(guest.monitor, [(int(a, 16), int(n, 16)) for _, a, n, _, _ in listed(more)], folder)
            if has_prompt and not goes_on:
                guest.press()
            goes_on = False
        return lines, Memory(files), guest.ended()
    finally:
        guest.stop()


def mtool(name, image, *words):
    command = [name, '-i', '%s@@%d' % (image, PARTITION), *words]
    return subprocess.run(command, check=True, stdout=subprocess.PIPE).stdout


def tables_in(text):
    """The bytes of the tables of acpidump's text, by address: a heading, and rows of an offset and up to 16 bytes."""
    tables, address = {}, None
    for line in text.splitlines():
        heading, row = re.fullmatch(r'(\S+) @ 0x([0-9A-F]{16})', line), re.match(r' *([0-9A-F]{4,8}): (.{47})', line)
        if heading:
            address = int(heading[2], 16)
            tables[address] = b''
        elif row and not line.startswith('#'):
            tables[address] += bytes.fromhex(row[2]) if int(row[1], 16) == len(tables[address]) else b'a wrong offset'
    return tables


def dumped(*words):
    read = subprocess.run([DUMP, *words], stdout=subprocess.PIPE, stderr=subprocess.STDOUT, text=True)
    return read.stdout.splitlines()


def as_listed(lines, read):
    """What differs between the tables on the screen and the lines that acpi_dump prints of the text: of an RSDP the
    address alone, a part that is malformed isn't the list's, and an error may have more words."""
    ours = [entry for entry in listed(lines) if not entry[4]]
    wrong = [] if len(ours) == len(read) - 1 else ['%d tables are listed, and %d read' % (len(ours), len(read) - 1)]
    for (name, address, length, status, _), line in zip(ours, read[1:]):
        right = line[:22] == '%s %s ' % (name, address) and line[22:30] == length
        right = right or name == 'RSDP' and line[5:21] == address
        if not right or not re.match('ok|malformed' if status == 'ok' else status, line[74:]):
            wrong.append('%r, not %r' % ((name, address, length, status), line))
    return wrong


def as_read(facts, summary):
    """What differs between the facts on the screen and acpi_dump's, which has none of an SRAT that is malformed, nor of
    an HPET whose sum is wrong."""
    theirs = sorted(line for line in summary if FACTS.match(line))
    for signature, name in (('SRAT', 'memory domain '), ('HPET', 'HPET ')):
        if any(line.split()[:3] == ['not', 'read', signature] for line in summary):
            facts = [fact for fact in facts if not fact.startswith(name)]
    if facts == theirs and len(facts) >= 5:
        return []
    return ['here %r, in the text %r' % ([f for f in facts if f not in theirs], [t for t in theirs if t not in facts])]


def check_text(lines, text, memory):
    """What is wrong with the text on the stick."""
    wrong, tables = [], tables_in(text)
    comments = joined([line[2:] for line in text.splitlines() if line.startswith('#')])
    pages = [line for line in lines if line in comments]
    if pages != comments or len(comments) < 10:
        wrong.append('the text has other lines than the screen: %r' % [c for c in comments if c not in lines])
    for name, address, _, _, private in listed(lines):
        if not private and memory.bytes_at(int(address, 16))[:len(tables.get(int(address, 16), b''))] != \
                tables.get(int(address, 16)):
            wrong.append('%s at %s has other bytes than the memory' % (name, address))
        if private and int(address, 16) in tables:
            wrong.append('%s is saved' % name)
    by_name = {name: tables.get(int(address, 16)) for name, address, _, _, _ in listed(lines)}
    right = plans(by_name.get('FACP'), by_name.get('DSDT'))[:-1]
    if [line for line in lines if line.startswith('plan ')] != right:
        wrong.append('plans: not %r' % right)
    return wrong


def content(path):
    with open(path, 'rb') as file:
        return file.read()


def changed(before, stick):
    """The numbers of the sectors that have changed since before."""
    now = content(stick)
    return {at // SECTOR for at in range(0, len(now), SECTOR) if now[at:at + SECTOR] != before[at:at + SECTOR]}


def check_stick(stick, name, before):
    """What is wrong with the rest of the stick: a BIOS writes no other sector than those of its file, and UEFI leaves
    the other files as they were."""
    if name == 'BIOS.TXT':
        same = changed(before, stick) <= Volume(stick).sectors(name)
        return [] if same else ['other sectors have changed']
    names = ['README.TXT', 'BIOS.TXT', 'EFI/BOOT/BOOTX64.EFI', 'EFI/BOOT/BOOTAA64.EFI']
    return [n + ' has changed' for n in names if mtool('mtype', stick, '::/' + n) != mtool('mtype', IMAGE, '::/' + n)]


def check(machine, stick, folder):
    """What is wrong on a machine, and what was seen."""
    command, name, wanted = MACHINES[machine]
    before = content(stick)
    lines, memory, ended = boot(command, stick, folder, WRITES.get(machine), machine == GOES_ON)
    with open(os.path.join(folder, 'errors')) as errors:
        wrong = [] if ended == (0, ['shutdown']) else ['ended by %r: %r, %s' % (ended, lines[-4:], errors.read())]
    text = mtool('mtype', stick, '::/' + name).decode('latin1')
    path = os.path.join(folder, name)
    with open(path, 'w', encoding='latin1') as file:
        file.write(text)
    at = {name: int(address, 16) for name, address, _, _, _ in listed(lines)}
    for line in wanted:
        line = re.sub(r'(\w{4})\+(0x\w+)', lambda m: '0x%x' % (at.get(m[1], 0) + int(m[2], 16)), line)
        if line not in lines:
            wrong.append('the screen hasn\'t %r' % line)
    wrong += check_text(lines, text.rstrip('\n'), memory) + check_stick(stick, name, before)
    facts = sorted(line for line in lines if FACTS.match(line) and not listed([line]))
    if DUMP:
        wrong += as_listed(lines, dumped(path))
        wrong += as_read(facts, dumped('--summary', path))
    return wrong, '%d tables, %d facts' % (len(listed(lines)), len(facts)), lines


def check_edit(name, stick, folder):
    """What is wrong on a machine whose stick was edited, or keeps nothing."""
    edit, why = EDITS.get(name, (lambda volume: None, "the stick hasn't kept what was written"))
    shutil.copyfile(IMAGE, stick)
    volume, drive = Volume(stick), stick
    volume.write(volume.place(volume.chain('BIOS.TXT')[0]), OLD)
    edit(volume)
    before = content(stick)
    if name not in EDITS:
        drive = 'nbd:unix:' + os.path.join(folder, 'nbd')
        Forgetful(before, os.path.join(folder, 'nbd')).start()
    lines, memory, ended = boot(bios('pc'), drive, folder)
    wrong, written = [] if ended[0] == 0 else ['ended by %r' % (ended,)], changed(before, stick)
    said = [line.split(NOT_WRITTEN)[1] for line in lines if NOT_WRITTEN in line]
    if why:
        wrong += ['why it isn\'t written: %r' % said] * (said != [why, why])
        return wrong + ['%d sectors were written' % len(written)] * bool(written), why, lines
    wrong += said + ['sectors of other files were written'] * (not written <= volume.sectors('BIOS.TXT'))
    text = mtool('mtype', stick, '::/BIOS.TXT')
    wrong += ['the text of the machine before is there'] * (b'OLDT' in text)
    if wrong:
        return wrong, 'it is written', lines
    return wrong + check_text(lines, text.decode('latin1').rstrip('\n'), memory), 'it is written', lines


def show(name, wrong, what, lines):
    """Prints what was seen on a machine, and returns whether nothing is wrong."""
    print('%s: %s: %s' % ('FAILED' if wrong else 'ok', name, what))
    if wrong:
        print('\n'.join('    ' + line for line in wrong + lines))
    elif os.environ.get('SHOW'):
        print('\n'.join(lines))
    return not wrong


def lacks(command):
    """The first file or program that is missing for a machine."""
    files = [word.rsplit('=', 1)[1] for word in command if word.startswith('if=pflash')]
    return next((f for f in files if not os.path.exists(f)), '' if shutil.which(command[0]) else command[0])


def main():
    sticks, results = {}, []
    for stick in ('BIOS.TXT', 'UEFI.TXT', 'edited'):
        sticks[stick] = os.path.join(FILES.name, stick + '.image')
        shutil.copyfile(IMAGE, sticks[stick])
    for name in [*MACHINES, *EDITS, 'it keeps nothing']:
        command, stick, _ = MACHINES.get(name, (bios('pc'), 'edited', None))
        if PART not in name:
            continue
        if lacks(command):
            print('skipped: %s, since there is no %s' % (name, lacks(command)))
            continue
        with tempfile.TemporaryDirectory() as folder:
            results.append(show(name, *(check if name in MACHINES else check_edit)(name, sticks[stick], folder)))
    print('%d passed, %d failed' % (sum(results), len(results) - sum(results)))
    return 0 if all(results) else 1


sys.exit(main())
