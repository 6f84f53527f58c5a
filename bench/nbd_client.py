#!/usr/bin/python3
"""Holds a server of NBD over standard input and output against libnbd: negotiations, and pseudorandom requests against a plain list.

Usage: nbd_client.py PROGRAM [WORD..]

The program serves a disk of at least 256 KiB of zeros, which nothing else changes. It is started by libnbd's connect_command, once a
check. Asks for Debian's python3-libnbd, which is for the system's Python."""

import errno
import random
import sys

import nbd

ROUNDS = 400


def started(command, prepare=lambda client: None):
    """A client of a program that was just started."""
    client = nbd.NBD()
    prepare(client)
    client.connect_command(command)
    return client


def negotiations(command):
    """The list of exports, another name, an abort, and the old way to choose an export, with zeros and without."""
    client = started(command, lambda c: c.set_opt_mode(True))
    names = []
    client.opt_list(lambda name, text: names.append(name) or 0)
    assert names == [""], names
    client.set_export_name("another")
    try:
        client.opt_info()
        raise AssertionError("another name has an export")
    except nbd.Error:
        pass
    client.set_export_name("")
    client.opt_info()
    client.opt_go()
    assert not client.get_structured_replies_negotiated()
    client.shutdown()
    client = started(command, lambda c: c.set_opt_mode(True))
    client.opt_abort()
    for flags in (0, nbd.HANDSHAKE_FLAG_NO_ZEROES):
        client = started(command, lambda c: c.set_handshake_flags(flags))
        assert client.get_protocol() == "newstyle"
        assert client.pread(512, 0) == bytes(512)
        client.shutdown()


def refused(call, number):
    """The call has this error."""
    try:
        call()
    except nbd.Error as error:
        assert error.errnum == number, error
        return
    raise AssertionError("no error")


def errors(command):
    """Ranges past the end, and more than the export takes; and what follows is answered."""
    client = started(command)
    size, most = client.get_size(), client.get_block_size(nbd.SIZE_MAXIMUM)
    client.set_strict_mode(0)
    refused(lambda: client.pread(2, size - 1), errno.EINVAL)
    refused(lambda: client.pwrite(b"ab", size - 1), errno.ENOSPC)
    refused(lambda: client.trim(2, size - 1), errno.EINVAL)
    refused(lambda: client.zero(2, size - 1), errno.ENOSPC)
    refused(lambda: client.pread(most + 1, 0), errno.EINVAL)
    refused(lambda: client.pwrite(bytes(most + 1), 0), errno.EINVAL)
    refused(lambda: client.cache(512, 0), errno.EINVAL)
    assert client.pread(512, size - 512) == bytes(512)
    client.shutdown()


def requests(command):
    """Reads, writes, trims, zeros and flushes, against a plain list."""
    client = started(command)
    most = min(client.get_block_size(nbd.SIZE_MAXIMUM), 8192)
    plain = bytearray(256 * 1024)
    draw = random.Random(35)
    for _ in range(ROUNDS):
        count = draw.randrange(1, most + 1)
        offset = draw.randrange(len(plain) - count + 1)
        last = draw.choice((0, nbd.CMD_FLAG_FUA))
        what = draw.randrange(5)
        if what == 0:
            assert client.pread(count, offset) == plain[offset : offset + count]
        elif what == 1:
            given = draw.randbytes(count)
            client.pwrite(given, offset, last)
            plain[offset : offset + count] = given
        elif what == 2:
            client.trim(count, offset, last)
            plain[offset : offset + count] = bytes(count)
        elif what == 3:
            client.zero(count, offset, last)
            plain[offset : offset + count] = bytes(count)
        else:
            client.flush()
    for offset in range(0, len(plain), most):
        count = min(most, len(plain) - offset)
        assert client.pread(count, offset) == plain[offset : offset + count]
    client.shutdown()


def main():
    command = sys.argv[1:]
    if not command:
        sys.exit(__doc__)
    for check in (negotiations, errors, requests):
        check(command)
        print(f"{check.__name__}: as libnbd has it")


if __name__ == "__main__":
    main()
