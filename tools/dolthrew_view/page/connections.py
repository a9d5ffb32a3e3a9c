"""The connections of the server: a bounded number, of which those that keep their heads back hold no other up."""
import socket
import threading


class Connections:
    """Those that are open, and of these the ones that have sent no whole head yet, the oldest first."""

    def __init__(self, most):
        self.most = most
        self.lock = threading.Lock()
        self.count = 0
        self.headless = {}

    def add(self, connection):
        """One more. Where these are too many, the one that has kept its head back longest is closed."""
        with self.lock:
            self.count += 1
            self.headless[connection] = None
            if self.count > self.most:
                oldest = next(iter(self.headless))
                del self.headless[oldest]
                close_quietly(oldest)

    def hear(self, connection):
        """Its head is whole, so it is never closed for another one."""
        with self.lock:
            self.headless.pop(connection, None)

    def remove(self, connection):
        with self.lock:
            self.count -= 1
            self.headless.pop(connection, None)


def close_quietly(connection):
    """Wakes the thread that waits for it, which ends then."""
    try:
        connection.shutdown(socket.SHUT_RDWR)
    except OSError:
        # It is closed already.
        pass
