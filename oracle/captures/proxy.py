"""A recording proxy on loopback: passes on what comes, both ways, and keeps the bytes that go to the broker."""
import socket
import threading

LOOPBACK = "127.0.0.1"


class Proxy:
    """Listens on `port`; `taken` has the bytes client -> broker of each connection, in the order of connecting."""

    def __init__(self, broker):
        self.broker, self.taken, self.ends = broker, [], []
        self.listener = socket.create_server((LOOPBACK, 0))
        self.port = self.listener.getsockname()[1]
        threading.Thread(target=self.accept, daemon=True).start()

    def accept(self):
        while True:
            client, _ = self.listener.accept()
            broker = socket.create_connection((LOOPBACK, self.broker))
            taken = bytearray()
            self.taken.append(taken)
            end = threading.Thread(target=pass_on, args=(client, broker, taken), daemon=True)
            self.ends.append(end)
            threading.Thread(target=pass_on, args=(broker, client, bytearray()), daemon=True).start()
            end.start()

    def last(self, count):
        """The bytes of the last of `count` connections, once the client has closed it."""
        for end in self.ends:
            end.join(30)
            if end.is_alive():
                raise TimeoutError("the client did not close its connection")
        if len(self.taken) != count:
            raise ValueError(f"{len(self.taken)} connections in place of {count}")
        return bytes(self.taken[-1])


def pass_on(source, target, taken):
    """Until the source ends. Kept first and sent then, so that an answer never comes before what it answers is kept."""
    try:
        while piece := source.recv(65536):
            taken += piece
            target.sendall(piece)
        target.shutdown(socket.SHUT_WR)
    except OSError:  # the other side is gone: its own thread sees to it
        pass
