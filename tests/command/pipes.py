# Judges into a socket that keeps writes apart, into a pipe that nobody reads, and into one that takes 4,096 bytes at a time.
# Arguments: the command, the folder to judge, a file with the listing that is to come.
import fcntl
import os
import socket
import subprocess
import sys
import time

SET_PIPE_SIZE = 1031
call = [sys.argv[1], "judge", sys.argv[2]]
os.environ["LC_ALL"] = "C"
with open(sys.argv[3], "rb") as file:
    listing = file.read()

mine, its = socket.socketpair(socket.AF_UNIX, socket.SOCK_DGRAM)
ended = subprocess.run(call, stdout=its, timeout=30)
mine.setblocking(False)
writes = []
try:
    while True:
        writes.append(mine.recv(1 << 20))
except BlockingIOError:
    pass
assert ended.returncode == 0 and writes == [listing], f"{len(writes)} writes"

for restore in (True, False):
    read, write = os.pipe()
    os.close(read)
    ended = subprocess.run(call, stdout=write, stderr=subprocess.PIPE, restore_signals=restore)
    os.close(write)
    assert ended.returncode == 2 and ended.stderr.endswith(b": Broken pipe\n"), "a pipe that nobody reads"
    assert ended.stderr.count(b"\n") == 1, "lines about a pipe that nobody reads"

read, write = os.pipe()
fcntl.fcntl(write, SET_PIPE_SIZE, 4096)
run = subprocess.Popen(call, stdout=write)
os.close(write)
time.sleep(0.5)
with open(read, "rb") as pipe:
    assert pipe.read() == listing, "a pipe that takes little"
assert run.wait() == 0, "the status with a pipe that takes little"
