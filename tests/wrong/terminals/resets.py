"""Resets the line at an authorisation. Found by: payment."""
import pathlib
import socket
import struct
import sys

sys.path.insert(0, str(pathlib.Path(__file__).parent.parent))
from terminal import Terminal, start


class Wrong(Terminal):
    def pay(self, data):
        self.line.setsockopt(socket.SOL_SOCKET, socket.SO_LINGER, struct.pack("ii", 1, 0))
        self.file.close()
        self.line.close()
        raise EOFError


start(Wrong)
