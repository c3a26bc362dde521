"""A websocket to a browser on this machine: text messages both ways, standard library alone (RFC 6455)."""
import base64
import os
import socket
import struct


class WebSocket:
    def __init__(self, port, path, timeout=120):
        self.rest = b""
        self.socket = socket.create_connection(("127.0.0.1", port), timeout=timeout)
        key = base64.b64encode(os.urandom(16)).decode()
        self.socket.sendall((f"GET {path} HTTP/1.1\r\nHost: 127.0.0.1:{port}\r\nUpgrade: websocket\r\nConnection: Upgrade\r\n"
                             f"Sec-WebSocket-Key: {key}\r\nSec-WebSocket-Version: 13\r\n\r\n").encode())
        while b"\r\n\r\n" not in self.rest:
            self.rest += self._more()
        head, self.rest = self.rest.split(b"\r\n\r\n", 1)
        if b" 101 " not in head.split(b"\r\n")[0]:
            raise RuntimeError(f"no websocket: {head[:200]!r}")

    def _more(self):
        got = self.socket.recv(1 << 16)
        if not got:
            raise RuntimeError("the browser closed the connection")
        return got

    def _take(self, count):
        parts, have = [self.rest], len(self.rest)
        while have < count:
            parts.append(self._more())
            have += len(parts[-1])
        whole = b"".join(parts)
        self.rest = whole[count:]
        return whole[:count]

    def _send(self, kind, data):
        """One frame; a client masks what it sends."""
        size, mask = len(data), os.urandom(4)
        masked = int.from_bytes(data, "big") ^ int.from_bytes((mask * (size // 4 + 1))[:size], "big")
        head = bytes([0x80 | kind]) + (bytes([0x80 | size]) if size < 126 else b"\xfe" + struct.pack(">H", size) if size < 65536
                                       else b"\xff" + struct.pack(">Q", size))
        self.socket.sendall(head + mask + masked.to_bytes(size, "big"))

    def send(self, text):
        self._send(1, text.encode())

    def receive(self):
        """The next message, put together from its frames; a ping is answered."""
        message = b""
        while True:
            first, second = self._take(2)
            size = second & 0x7F
            if size > 125:
                size = struct.unpack(">H", self._take(2))[0] if size == 126 else struct.unpack(">Q", self._take(8))[0]
            data, kind = self._take(size), first & 15
            if kind == 8:
                raise RuntimeError("the browser closed the connection")
            if kind == 9:
                self._send(10, data)
            if kind > 7:
                continue
            message += data
            if first & 0x80:
                return message.decode()

    def close(self):
        self.socket.close()
