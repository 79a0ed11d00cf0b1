"""Name servers of a test, in threads, on free ports."""
import contextlib
import socket
import threading

from repository.packing import framed, take_frame

PORTS = iter(range(20000, 30000))


def free_port():
    """A port without user by UDP and TCP at all addresses, below the range of the system's random
    ports; no port is given twice."""
    for port in PORTS:
        with socket.socket(type=socket.SOCK_DGRAM) as by_udp, socket.socket() as over_tcp:
            try:
                by_udp.bind(("0.0.0.0", port))
                over_tcp.bind(("0.0.0.0", port))
                return port
            except OSError:
                continue
    raise AssertionError("no port is free")


class NameServer:
    """A name server, whose replies a test chooses.

    `by_udp` returns the reply to a query, or None; `over_tcp` gets a connection and its query."""

    def __init__(self, by_udp, over_tcp=None, port=None, address="127.0.0.1"):
        self.by_udp, self.over_tcp = by_udp, over_tcp or self.framing(by_udp)
        self.asked, self.asked_from = [], []
        self.port = port or free_port()
        self.tcp = socket.create_server((address, self.port), backlog=64)
        self.udp = socket.socket(type=socket.SOCK_DGRAM)
        self.udp.bind((address, self.port))
        self.serving = [threading.Thread(target=serve, daemon=True)
                        for serve in (self.serve_udp, self.serve_tcp)]
        for each in self.serving:
            each.start()

    @staticmethod
    def framing(reply_to):
        """Sends the reply of this function over a connection."""
        return lambda stream, query: stream.sendall(framed(reply_to(query)))

    def stop(self, *sockets):
        """Closes these sockets, or both. A shutdown wakes a waiting thread; after both, the address
        is free for another server."""
        for each in sockets or (self.udp, self.tcp):
            with contextlib.suppress(OSError):
                each.shutdown(socket.SHUT_RDWR)
            each.close()
        if not sockets and threading.current_thread() not in self.serving:
            for each in self.serving:
                each.join(timeout=1)

    def serve_udp(self):
        while True:
            try:
                query, client = self.udp.recvfrom(65535)
            except OSError:
                return
            if not query:  # the end of a stopped server
                return
            self.asked.append(query)
            self.asked_from.append(client[1])
            reply = self.by_udp(query)
            if reply is not None:
                self.udp.sendto(reply, client)

    def serve_tcp(self):
        while True:
            try:
                stream, _ = self.tcp.accept()
            except OSError:
                return
            threading.Thread(target=self.serve_stream, args=(stream,), daemon=True).start()

    def serve_stream(self, stream):
        with stream:
            try:
                self.over_tcp(stream, take_frame(stream))
                stream.recv(1)
            except (OSError, EOFError):
                pass
