"""`client.py ADDRESS WORDS` runs `fmm WORDS` in a fork of the server at this address, with its own standard files, folder and
environment, and ends with its status."""
import json
import os
import signal
import socket
import sys


def run(address, words, environment, files, started=lambda pid: None):
    """The status of a command; -9 if the server is gone."""
    with socket.socket(socket.AF_UNIX, socket.SOCK_SEQPACKET) as server:
        server.connect(address)
        server.setsockopt(socket.SOL_SOCKET, socket.SO_SNDBUF, 1 << 20)
        socket.send_fds(server, [json.dumps([words, os.getcwd(), dict(environment)]).encode()], files)
        started(int(server.recv(20) or 0))
        return int(server.recv(20) or -signal.SIGKILL)


def hand_on(pid):
    """Signals to this process go to the command."""
    for number in (signal.SIGINT, signal.SIGTERM, signal.SIGHUP):
        signal.signal(number, lambda number, _: os.kill(pid, number))


if __name__ == "__main__":
    status = run(sys.argv[1], sys.argv[2:], os.environ, [0, 1, 2], hand_on)
    if status < 0:
        signal.signal(-status, signal.SIG_DFL)
        os.kill(os.getpid(), -status)
    sys.exit(status)
