"""A plain client of NBD, with those calls of libnbd that `disk_kill.py` and `disk_damage.py` make, for a machine without python3-libnbd.

Written from the protocol's text alone: the fixed newstyle handshake, the default export by NBD_OPT_GO, simple replies."""

import select
import socket
import struct

NBDMAGIC, IHAVEOPT, OPTION_REPLY = 0x4E42444D41474943, 0x49484156454F5054, 0x3E889045565A9
REQUEST, REPLY = 0x25609513, 0x67446698
OPT_GO, REP_ACK, REP_INFO = 7, 1, 3
READ, WRITE, DISC, FLUSH, TRIM, WRITE_ZEROES = 0, 1, 2, 3, 4, 6
FIXED_NEWSTYLE_NO_ZEROES = 3
CMD_FLAG_FUA = 1
MOST = 1 << 20


class Error(Exception):
    """The server is gone, answered what it may not, or answered an error, which has a number then."""

    def __init__(self, text, number=0):
        super().__init__(text)
        self.errnum = number


class Buffer:
    """Bytes that a request gives or takes."""

    def __init__(self, count):
        self.bytes = bytearray(count)

    @classmethod
    def from_bytearray(cls, body):
        buffer = cls(0)
        buffer.bytes = bytearray(body)
        return buffer

    def to_bytearray(self):
        return self.bytes


class NBD:
    """A connection, and the requests that are not answered yet: of each the buffer of a read, by its cookie."""

    def __init__(self):
        self.socket = None
        self.came = bytearray()
        self.asked = {}
        self.answers = {}
        self.last = 0

    def connect_socket(self, number):
        self.socket = socket.socket(fileno=number)
        magic, option, _ = struct.unpack(">QQH", self.exactly(18))
        if (magic, option) != (NBDMAGIC, IHAVEOPT):
            raise Error("no server of NBD")
        self.send(struct.pack(">IQII", FIXED_NEWSTYLE_NO_ZEROES, IHAVEOPT, OPT_GO, 6) + bytes(6))
        while True:
            magic, option, kind, length = struct.unpack(">QIII", self.exactly(20))
            self.exactly(length)
            if (magic, option) != (OPTION_REPLY, OPT_GO) or kind not in (REP_ACK, REP_INFO):
                raise Error(f"an option was answered by {kind}")
            if kind == REP_ACK:
                return

    def aio_pread(self, buffer, offset):
        return self.ask(READ, offset, len(buffer.bytes), buffer=buffer)

    def aio_pwrite(self, buffer, offset, flags=0):
        return self.ask(WRITE, offset, len(buffer.bytes), flags, bytes(buffer.bytes))

    def aio_trim(self, count, offset, flags=0):
        return self.ask(TRIM, offset, count, flags)

    def aio_zero(self, count, offset, flags=0):
        return self.ask(WRITE_ZEROES, offset, count, flags)

    def aio_flush(self):
        return self.ask(FLUSH, 0, 0)

    def aio_command_completed(self, cookie):
        """Whether the request was answered; once it was, its cookie is forgotten."""
        if cookie not in self.answers:
            return False
        error = self.answers.pop(cookie)
        if error:
            raise Error(f"error {error}", error)
        return True

    def poll(self, milliseconds):
        """Waits so long for answers, and takes those that come."""
        if select.select([self.socket], [], [], milliseconds / 1000)[0]:
            self.take()

    def pread(self, count, offset):
        buffer = Buffer(count)
        self.wait(self.aio_pread(buffer, offset))
        return bytes(buffer.bytes)

    def pwrite(self, body, offset):
        self.wait(self.aio_pwrite(Buffer.from_bytearray(body), offset))

    def trim(self, count, offset):
        self.wait(self.aio_trim(count, offset))

    def flush(self):
        self.wait(self.aio_flush())

    def shutdown(self):
        self.ask(DISC, 0, 0)
        try:
            while True:
                self.receive()
        except Error:
            self.socket.close()
        if self.came:
            raise Error("an answer to no request")

    def ask(self, kind, offset, count, flags=0, body=b"", buffer=None):
        self.last += 1
        if kind != DISC:
            self.asked[self.last] = buffer
        self.send(struct.pack(">IHHQQI", REQUEST, flags, kind, self.last, offset, count) + body)
        return self.last

    def wait(self, cookie):
        while not self.aio_command_completed(cookie):
            self.take()

    def send(self, body):
        try:
            self.socket.sendall(body)
        except OSError as fault:
            raise Error("the server is gone") from fault

    def receive(self):
        try:
            found = self.socket.recv(MOST)
        except OSError as fault:
            raise Error("the server is gone") from fault
        if not found:
            raise Error("the server hung up")
        self.came += found

    def exactly(self, count):
        while len(self.came) < count:
            self.receive()
        found = bytes(self.came[:count])
        del self.came[:count]
        return found

    def take(self):
        """Receives what there is, and takes each answer that is whole."""
        self.receive()
        while len(self.came) >= 16:
            magic, error, cookie = struct.unpack(">IIQ", self.came[:16])
            if magic != REPLY or cookie not in self.asked:
                raise Error(f"an answer to no request: {magic:x}, {cookie}")
            buffer = self.asked[cookie]
            count = 0 if buffer is None or error else len(buffer.bytes)
            if len(self.came) < 16 + count:
                return
            if count:
                buffer.bytes[:] = self.came[16 : 16 + count]
            del self.came[: 16 + count]
            del self.asked[cookie]
            self.answers[cookie] = error
