"""A socket between the gateway and the hub that records each line which the gateway sends."""

import os
import socket
import threading

READ_BYTES = 1 << 16


class Recorder:
    def __init__(self, path: str, hub: str) -> None:
        self.path, self.hub = path, hub
        self.lines: list[bytes] = []
        self.listening = socket.socket(socket.AF_UNIX)
        self.listening.bind(path)
        self.listening.listen(128)
        threading.Thread(target=self.serve, daemon=True).start()

    def serve(self) -> None:
        while True:
            try:
                client = self.listening.accept()[0]
            except OSError:
                return  # The recorder has ended.
            hub = socket.socket(socket.AF_UNIX)
            hub.connect(self.hub)
            for source, target, is_kept in ((client, hub, True), (hub, client, False)):
                threading.Thread(
                    target=self.forward, args=(source, target, is_kept), daemon=True).start()

    def forward(self, source: socket.socket, target: socket.socket, is_kept: bool) -> None:
        rest = b""
        try:
            while data := source.recv(READ_BYTES):
                if is_kept:
                    *lines, rest = (rest + data).split(b"\n")
                    self.lines += lines
                target.sendall(data)
        except OSError:
            pass  # One of both has left.
        for end in (source, target):
            try:
                end.shutdown(socket.SHUT_RDWR)
            except OSError:
                pass  # It has ended already.
        if rest:
            self.lines.append(rest + b" without an end")

    def stop(self) -> None:
        self.listening.close()
        os.unlink(self.path)
