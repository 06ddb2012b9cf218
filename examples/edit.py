#!/usr/bin/env python3
"""Sends the edit lines of standard input to an editors' port, one by one, and prints each reply. usage: edit.py ADDRESS:PORT < LINES"""
import socket
import sys

address, port = sys.argv[1].split(":")
with socket.create_connection((address, port)) as connection, connection.makefile("rwb") as service:
    for line in filter(bytes.strip, sys.stdin.buffer):  # A blank line gets no reply.
        service.write(line.rstrip(b"\n") + b"\n")
        service.flush()
        reply = service.readline() or sys.exit("edit.py: no reply")
        print(reply.decode(), end="", flush=True)
