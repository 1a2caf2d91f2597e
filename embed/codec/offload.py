"""Has Linux compute the checksums of what it sends by an interface, not leave them to it: offload.py NAME. In a capture they are right then."""

import array
import fcntl
import socket
import struct
import sys

SIOCETHTOOL, ETHTOOL_STXCSUM = 0x8946, 0x17


def main() -> None:
    asked = array.array("B", struct.pack("=II", ETHTOOL_STXCSUM, 0))
    with socket.socket(socket.AF_INET, socket.SOCK_DGRAM) as any_socket:
        fcntl.ioctl(any_socket, SIOCETHTOOL, struct.pack("16sP16x", sys.argv[1].encode(), asked.buffer_info()[0]))


main()
