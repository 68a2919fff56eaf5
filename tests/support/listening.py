"""A listener at a free port of this machine."""
import socket
import threading


class Listening:
    """Listens at a free port of this machine, and gives each connection to `take`, which a server has."""

    def __init__(self):
        self.listener = socket.create_server(("127.0.0.1", 0))
        self.port = self.listener.getsockname()[1]
        threading.Thread(target=self.listen, daemon=True).start()

    def listen(self):
        """Takes each connection that comes, until there is an end."""
        while True:
            try:
                stream, _ = self.listener.accept()
            except OSError:
                return
            stream.setsockopt(socket.IPPROTO_TCP, socket.TCP_NODELAY, 1)
            self.take(stream)

    def stop(self):
        """Takes no connection more."""
        try:
            self.listener.shutdown(socket.SHUT_RDWR)
        except OSError:
            # It was stopped before.
            return
        self.listener.close()
