"""A reader that has its own clock: an Invoke whose TID is verified, up to the Result. Once a file is there, the gateway was restarted: the
Result must come again, and is acknowledged.
usage: reader.py ADDRESS FILE
"""
import os
import socket
import sys
import time

host, port = sys.argv[1].rsplit(":", 1)
own = socket.socket(socket.AF_INET, socket.SOCK_DGRAM)
own.bind(("127.0.0.1", 0))
own.settimeout(30)
VALUE = b"NO2 41.2 ug/m3"


def say(octets):
    own.sendto(octets, (host, int(port)))


def hear(pdu):
    while own.recv(2000) != pdu:
        pass


say(b"\x0e\x00\x05\x02sampler 0041")
hear(b"\x1c\x80\x05")
say(b"\x1c\x00\x05")
hear(b"\x16\x80\x05" + VALUE)
print("answered", flush=True)
while not os.path.exists(sys.argv[2]):
    time.sleep(0.05)
# What came before the restart doesn't count.
own.setblocking(False)
try:
    while True:
        own.recv(2000)
except BlockingIOError:
    own.settimeout(30)
hear(b"\x17\x80\x05" + VALUE)
say(b"\x18\x00\x05")
