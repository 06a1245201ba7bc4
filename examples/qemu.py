# SPDX-License-Identifier: MIT
"""What the runners of `kernel`, `uefi` and `stick` share: a machine of QEMU, its serial port, and its memory."""
import json
import os
import re
import select
import socket
import struct
import subprocess
import time


class Memory:
    """Files of memory, as pairs of an address and a name."""
    def __init__(self, files):
        self.spans = []
        for start, name in zip(files[::2], files[1::2]):
            with open(name, 'rb') as f:
                self.spans.append((int(start, 16), f.read()))

    def bytes_at(self, address):
        for start, data in self.spans:
            if start <= address < start + len(data):
                return data[address - start:]
        return b''

    def table_at(self, address):
        """As many bytes as the table's Length says, at 4; none if its header isn't there."""
        data = self.bytes_at(address)
        return bytearray(data[:struct.unpack_from('<I', data, 4)[0]]) if len(data) >= 36 else bytearray()

    def stands(self, address, signature):
        t = self.table_at(address)
        return t[:4] == signature.encode('latin1') and sum(t) & 255 == 0


def compared(lines, programs, files, image, start):
    """What differs between these lines and acpi_view's of an image that acpi_pack makes of the files. If there is no
    acpi_pack the first program is acpi_dump, or there is none: then the lines of tables alone are compared."""
    view, pack = programs
    if not view:
        return []
    if not pack:
        theirs, lines = listed(view, files, image, start), [l for l in lines if l.startswith('table ')]
    else:
        made = subprocess.run([pack, image, 'memory'] + files, capture_output=True, text=True)
        if made.returncode:
            return ['acpi_pack: ' + made.stderr]
        read = subprocess.run([view, image] + start, capture_output=True, text=True)
        theirs = read.stdout.splitlines() + read.stderr.splitlines()
    ours, others = [l for l in lines if l not in theirs], [l for l in theirs if l not in lines]
    return ['here %r, in the memory %r' % (ours, others)] if lines != theirs else []


def listed(dump, files, image, start):
    """The tables that acpi_dump lists as valid by header and sum, as lines; none if it can't open them. A file is a
    record of an image, after its address and its length. The list begins with the root table, and ends with DSDT and
    FACS, which no root table lists."""
    with open(image, 'wb') as to:
        for address, name in zip(files[::2], files[1::2]):
            with open(name, 'rb') as f:
                data = f.read()
            to.write(struct.pack('<QQ', int(address, 16), len(data)) + data)
    read = subprocess.run([dump, image] + start + ['--json'], capture_output=True, text=True)
    tables = json.loads(read.stdout)['tables'][1:] if read.returncode == 0 else []
    valid = [t for t in tables if re.match('ok|malformed', t['status']) and t['signature'] not in ('DSDT', 'FACS')]
    return ['table %(signature)s length %(length)d revision %(revision)d' % t for t in valid]


def numbers(lines, word):
    """The hexadecimal numbers of the lines that begin with a word."""
    return [[int(x, 16) for x in l.split() if x.startswith('0x')] for l in lines if l.startswith(word + ' ')]


def connect(s, path):
    """QEMU makes a socket's file before it listens there, so the first tries may fail."""
    s.settimeout(60)
    last = time.time() + 20
    while s.connect_ex(path) and time.time() < last:
        time.sleep(0.05)


def change(path, where, writes):
    """Lets the machine run to an address, and writes into its physical memory: the firmware has made its tables by
    then. What is written, addresses with bytes, is a list, or what a function returns that is passed one which reads
    memory. QEMU's monitor has no command that writes memory, so its gdb stub does it."""
    with socket.socket(socket.AF_UNIX) as s:
        connect(s, path)

        def ask(line):
            s.sendall(b'$' + line.encode() + b'#%02x' % (sum(line.encode()) & 255))
            said = b''
            while not re.search(rb'\$[^#]*#..$', said):
                said += s.recv(65536)
            s.sendall(b'+')
            return said[said.index(b'$') + 1:-3].decode()

        def read(address, length):
            pieces = range(address, address + length, 1024)
            return bytes.fromhex(''.join(ask('m%x,%x' % (p, min(1024, address + length - p))) for p in pieces))

        ask('qSupported')
        ask('?')
        assert ask('Z1,%x,1' % where) == 'OK'
        assert ask('c')[0] in 'TS'
        assert ask('z1,%x,1' % where) == 'OK'
        assert ask('Qqemu.PhyMemMode:1') == 'OK'
        for address, data in writes(read) if callable(writes) else writes:
            assert ask('M%x,%x:%s' % (address, len(data), data.hex())) == 'OK'
        ask('D')


class Ending:
    """How a machine ends, by QEMU's machine protocol (QMP) at a socket, which is there before the machine runs."""
    def __init__(self, path):
        self.stream = socket.socket(socket.AF_UNIX)
        connect(self.stream, path)
        self.stream.sendall(b'{"execute": "qmp_capabilities"}\n')

    def how(self):
        """What the guest did, in order, of `reset` and `shutdown`, once QEMU has ended."""
        with self.stream:
            said = until(self.stream, b'no end of it')
        events = rb'"event": "(RESET|SHUTDOWN)", "data": \{"guest": true, "reason": "guest-(\w+)"'
        return [why.decode() for _, why in re.findall(events, said)]


def until(stream, end):
    said = b''
    while not said.endswith(end):
        more = stream.recv(65536)
        if not more:
            break
        said += more
    return said


def save(monitor, spans, folder):
    """Saves ranges of the machine's memory by QEMU's monitor: pairs of an address and a file's name, one after the
    other, as acpi_pack takes them."""
    files = []
    with socket.socket(socket.AF_UNIX) as s:
        connect(s, monitor)
        until(s, b'(qemu) ')
        for address, length in spans:
            name = os.path.join(folder, '%x.bin' % address)
            s.sendall(b'pmemsave 0x%x 0x%x "%s"\n' % (address, length, name.encode()))
            until(s, b'(qemu) ')
            files += [hex(address), name]
    return files


def lines_until(p, end, seconds):
    """The lines that a machine prints until one of them is an end, it stops, or so many seconds have passed."""
    said, last = b'', time.time() + seconds
    while not re.search(rb'^(%s)\r?\n' % end, said, re.M):
        more = b''
        if select.select([p.stdout], [], [], max(0, last - time.time()))[0]:
            more = os.read(p.stdout.fileno(), 65536)
        if not more:
            break
        said += more
    return said.decode('latin1').replace('\r', '').splitlines()
