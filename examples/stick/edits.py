# SPDX-License-Identifier: MIT
"""What may happen to BIOS.TXT after the stick's image was written, as edits of its FAT32 file system (Microsoft's FAT32
File System Specification), and whether a BIOS's program may still write it: machines.py boots a stick with each."""
import os
import random
import re
import socket
import struct
import subprocess
import tempfile
import threading

SECTOR, PARTITION = 512, 1 << 20
SIZE = 4 << 20  # of the file as the image has it
PHOTO = b'\xff\xd8\xff' + random.Random(1).randbytes((3 << 20) - 3)
OLD = (b'# zacpi 1.0.0, BIOS: the machine before\n\nOLDT @ 0x0000000000001000\n'
       b'    0000: 4F 4C 44 54 24 00 00 00 01 00 5A 41 43 50 49 20  OLDT$.....ZACPI \n\n')
END = 0xfffffff


class Volume:
    """The file system of a stick. A cluster is a sector, as the image has it."""

    def __init__(self, image):
        self.image = image
        with open(image, 'rb') as file:
            start = file.read(PARTITION + SECTOR)[PARTITION:]
        reserved, self.each = struct.unpack_from('<H', start, 14)[0], struct.unpack_from('<I', start, 36)[0]
        self.tables = PARTITION + reserved * SECTOR
        self.data = self.tables + 2 * self.each * SECTOR

    def write(self, at, data):
        with open(self.image, 'r+b') as file:
            file.seek(at)
            file.write(data)

    def place(self, cluster):
        return self.data + (cluster - 2) * SECTOR

    def mtool(self, name, *words):
        command, env = [name, '-i', '%s@@%d' % (self.image, PARTITION), *words], dict(os.environ, MTOOLS_SKIP_CHECK='1')
        return subprocess.run(command, env=env, check=True, stdout=subprocess.PIPE).stdout

    def chain(self, name):
        """The clusters of a file, as mtools finds them."""
        runs = re.findall(r'(\d+)(?:-(\d+))?', self.mtool('mshowfat', '::/' + name).decode().split('<', 1)[1])
        return [at for first, last in runs for at in range(int(first), int(last or first) + 1)]

    def sectors(self, name):
        """The numbers of a file's sectors on the stick."""
        return {self.place(at) // SECTOR for at in self.chain(name)}

    def add(self, name, data):
        """Copies a file to the first clusters that are free: at 488 of the file system's second sector is how many are
        free, and from which on to look."""
        self.write(PARTITION + SECTOR + 488, b'\xff' * 8)
        with tempfile.NamedTemporaryFile() as file:
            file.write(data)
            file.flush()
            self.mtool('mcopy', '-o', file.name, '::/' + name)

    def remove(self, name):
        self.mtool('mdel', '::/' + name)

    def link(self, cluster, value, tables=(0, 1)):
        for each in tables:
            self.write(self.tables + each * self.each * SECTOR + 4 * cluster, struct.pack('<I', value))

    def entry(self, name, at, kind, value=None):
        """A number of a folder's entry, by its name's 11 bytes; it is changed if a value is passed."""
        with open(self.image, 'rb') as file:
            image = file.read()
        at += image.index(name, self.data)
        if value is not None:
            self.write(at, struct.pack(kind, value))
        return struct.unpack_from(kind, image, at)[0]


def text(length, end=b''):
    """The old text with blank lines after it."""
    return (OLD + b'\n' * (length - len(OLD) - len(end)) + end)[:length]


def resized(length, end=b''):
    def edit(volume):
        volume.remove('BIOS.TXT')
        volume.add('BIOS.TXT', text(length, end))
    return edit


def photo_in_its_place(volume):
    """As an editor saves it: a new file, and the old one is removed. Then something else is written."""
    clusters = volume.chain('BIOS.TXT')
    volume.mtool('mren', '::/BIOS.TXT', '::/OLD.TXT')
    volume.add('BIOS.TXT', text(SIZE))
    volume.remove('OLD.TXT')
    volume.add('PHOTO.JPG', PHOTO)
    assert set(volume.chain('PHOTO.JPG')) < set(clusters)


def pieces(volume):
    """Its clusters in pieces of 40, the first and then backwards, each second of them a photo's."""
    clusters = volume.chain('BIOS.TXT')
    parts = [clusters[i:i + 40] for i in range(0, SIZE // SECTOR, 40)]
    kept = [at for part in [parts[0]] + parts[:1:-2] for at in part]
    for at, after in [(at, 0) for at in clusters] + list(zip(kept, kept[1:] + [END])):
        volume.link(at, after)
    volume.entry(b'BIOS    TXT', 28, '<I', len(kept) * SECTOR)
    volume.add('PHOTO.JPG', PHOTO[:1 << 20])
    assert volume.chain('BIOS.TXT') == kept and set(volume.chain('PHOTO.JPG')) < set(clusters)


def missing(volume):
    volume.remove('BIOS.TXT')
    volume.add('PHOTO.JPG', PHOTO)


def photo_by_its_name(volume):
    volume.remove('BIOS.TXT')
    volume.add('BIOS.TXT', PHOTO)


def two_of_its_name(volume):
    volume.add('PHOTO.JPG', PHOTO)
    volume.entry(b'PHOTO   JPG', 0, '11s', b'BIOS    TXT')


def photo_leads_into_it(volume):
    volume.add('PHOTO.JPG', PHOTO)
    volume.link(volume.chain('PHOTO.JPG')[-1], volume.chain('BIOS.TXT')[100])


def it_leads_into_a_photo(volume):
    """Its length is that of the new chain."""
    volume.add('PHOTO.JPG', PHOTO)
    volume.link(volume.chain('BIOS.TXT')[(SIZE - len(PHOTO)) // SECTOR - 1], volume.chain('PHOTO.JPG')[0])


def photo_begins_in_it(volume):
    """In a folder of a folder."""
    volume.mtool('mmd', '::/PHOTOS', '::/PHOTOS/2026')
    volume.add('PHOTOS/2026/PHOTO.JPG', PHOTO[:SECTOR])
    volume.entry(b'PHOTO   JPG', 26, '<H', volume.chain('BIOS.TXT')[5000])


def links(at, value, tables=(0, 1)):
    """Changes which cluster comes after one of its clusters, or after the end."""
    def edit(volume):
        clusters = volume.chain('BIOS.TXT')
        volume.link(clusters[at], clusters[value] if value < SIZE // SECTOR else value, tables)
    return edit


def folder_in_itself(volume):
    volume.mtool('mmd', '::/PHOTOS', '::/PHOTOS/2026')
    volume.entry(b'2026       ', 26, '<H', volume.entry(b'PHOTOS     ', 26, '<H'))


def other_file_system(volume):
    """FAT16, with the file."""
    volume.mtool('mformat', '-h', '255', '-s', '63', '-H', '2048', '-T', str(131072 - 2048), '::')
    with tempfile.NamedTemporaryFile() as file:
        file.write(text(SIZE))
        file.flush()
        volume.mtool('mcopy', file.name, '::/BIOS.TXT')


DAMAGED, CHAIN = "the stick's file system is damaged", 'its chain of clusters is damaged'
MISSING, SHARED = "it isn't there, or is empty", 'another file shares its clusters'
# Of each what is done, and why it isn't written then.
EDITS = {
    'it is elsewhere, and a photo in its place': (photo_in_its_place, None),
    'it is shorter': (resized(300001), None),
    'it is longer, with another table at its end': (resized(SIZE + 12345, OLD), None),
    'it is in pieces between those of a photo': (pieces, None),
    'it is too short for the text': (resized(10000), 'it is too short'),
    'it is empty': (resized(0), MISSING),
    'it is missing, and a photo in its place': (missing, MISSING),
    'a photo has its name': (photo_by_its_name, 'it is another text'),
    'it is there twice': (two_of_its_name, 'it is there twice'),
    'it may only be read': (lambda volume: volume.mtool('mattrib', '+r', '::/BIOS.TXT'),
                            'it is read-only, or a folder'),
    'a photo leads into it': (photo_leads_into_it, SHARED),
    'it leads into a photo': (it_leads_into_a_photo, SHARED),
    'a photo begins in it': (photo_begins_in_it, SHARED),
    'its chain is a loop': (links(4000, 20), CHAIN),
    'its chain leaves the stick': (links(4000, 0x1f810), CHAIN),
    'its chain ends too early': (links(4000, END), CHAIN),
    'its chain is longer than it is': (lambda volume: volume.entry(b'BIOS    TXT', 28, '<I', SIZE - SECTOR),
                                       'its chain of clusters is longer than it is'),
    'its two tables differ': (links(4000, 5000, [1]), DAMAGED),
    'a folder is in itself': (folder_in_itself, 'the stick has too many folders'),
    'there is another file system': (other_file_system, "the stick's file system isn't the image's"),
}


class Forgetful(threading.Thread):
    """A stick that takes what is written and keeps none of it, as QEMU's network block devices (NBD's protocol, fixed
    newstyle: what a client asks for before its export, by NBD_OPT_GO, isn't known here)."""

    def __init__(self, image, path):
        super().__init__(daemon=True)
        self.image = image
        self.socket = socket.socket(socket.AF_UNIX)
        self.socket.bind(path)
        self.socket.listen()

    def run(self):
        client = self.socket.accept()[0]
        with client, client.makefile('rb') as stream:
            client.sendall(b'NBDMAGICIHAVEOPT\0\1')
            stream.read(4)
            option = 0
            while option != 7:
                option, length = struct.unpack('>8xII', stream.read(16))
                stream.read(length)
                if option == 7:  # its size, and that it has flags
                    self.option(client, 7, 3, struct.pack('>HQH', 0, len(self.image), 1))
                self.option(client, option, 1 if option == 7 else 1 << 31 | 1)
            request = stream.read(28)
            while request:
                kind, handle, at, length = struct.unpack('>6xH8sQI', request)
                stream.read(length * (kind == 1))
                if kind == 2:
                    return
                client.sendall(b'gDf\x98\0\0\0\0' + handle + (self.image[at:at + length] if kind == 0 else b''))
                request = stream.read(28)

    @staticmethod
    def option(client, option, kind, data=b''):
        client.sendall(struct.pack('>QIII', 0x3e889045565a9, option, kind, len(data)) + data)
