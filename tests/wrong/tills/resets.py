"""Resets the line after its registration. Found by: approval."""
import pathlib
import socket
import struct
import sys

sys.path.insert(0, str(pathlib.Path(__file__).parent.parent))
from till import REGISTRATION, Lost, Till, start


class Wrong(Till):
    def register(self):
        self.connect()
        self.line.setsockopt(socket.SOL_SOCKET, socket.SO_LINGER, struct.pack("ii", 1, 0))
        self.send(REGISTRATION)
        self.disconnect()
        raise Lost


start(Wrong)
