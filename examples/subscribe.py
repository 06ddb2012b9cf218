#!/usr/bin/env python3
"""Prints each snapshot that a subscriber is sent, as `watch` does. usage: subscribe.py ADDRESS:PORT"""
import socket
import struct
import sys

address, port = sys.argv[1].split(":")
with socket.create_connection((address, port)) as connection, connection.makefile("rb") as service:
    connection.sendall(bytes(9))  # The hello of who has nothing. Who has revision N says struct.pack(">BQ", 1, N).
    while len(head := service.read(16)) == 16:
        magic, revision, length = struct.unpack(">4sQI", head)
        if magic != b"SNP1" or len(document := service.read(length)) < length:
            sys.exit("no frame, or half of one")
        print(revision, document.decode(), flush=True)
