"""The small terminal without a fault."""
from terminal import Terminal, start

start(Terminal)
