"""interrupted.py read|write|nowait|nowait-output WALL PROGRAM [WORD..]: runs a program on a wall file with its input or its output a socket whose calls a stopped
and continued process sees interrupted (it has a timeout), or with one that does not wait; prints its answer and what it says."""
import os
import signal
import socket
import struct
import subprocess
import sys
import time

side, wall, call = sys.argv[1], sys.argv[2], sys.argv[3:]
ours, theirs = socket.socketpair()
AN_HOUR = struct.pack("ll", 3600, 0)


def stopped_and_continued(process):
    time.sleep(0.05)
    process.send_signal(signal.SIGSTOP)
    time.sleep(0.02)
    process.send_signal(signal.SIGCONT)
    time.sleep(0.05)


def started(**streams):
    process = subprocess.Popen(call, stderr=subprocess.PIPE, **streams)
    theirs.close()
    return process


# Fills their end, so that the program's first write finds no room, and says by how many bytes.
def filled():
    full = 0
    try:
        while True:
            full += theirs.send(bytes(512), socket.MSG_DONTWAIT)
    except BlockingIOError:
        return full


if side == "read":
    theirs.setsockopt(socket.SOL_SOCKET, socket.SO_RCVTIMEO, AN_HOUR)
    process = started(stdin=theirs, stdout=subprocess.PIPE)
    file = open(wall, "rb").read()
    for at in range(0, len(file), 200):
        stopped_and_continued(process)
        try:
            ours.sendall(file[at:at + 200])
        except BrokenPipeError:
            break
    ours.close()
    answer, said = process.communicate()
elif side == "write":
    theirs.setsockopt(socket.SOL_SOCKET, socket.SO_SNDTIMEO, AN_HOUR)
    full = filled()
    process = started(stdin=open(wall, "rb"), stdout=theirs)
    for _ in range(3):
        stopped_and_continued(process)
    answer = b""
    while piece := ours.recv(65536):
        answer += piece
    answer, said = answer[full:], process.stderr.read()
    process.wait()
elif side == "nowait":
    theirs.setblocking(False)
    process = started(stdin=theirs, stdout=subprocess.PIPE)
    answer, said = process.communicate()
else:
    theirs.setblocking(False)
    filled()
    process = started(stdin=open(wall, "rb"), stdout=theirs)
    answer, said = b"", process.stderr.read()
    process.wait()
sys.stdout.buffer.write(answer)
sys.stderr.buffer.write(said)
sys.exit(process.returncode)
