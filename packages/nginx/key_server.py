"""A server on the loopback that gives a set of keys, in each way in which it can go wrong too."""
import contextlib
import json
import socket
import threading
import time


def head(length=None, status="200 OK", more=""):
    size = "" if length is None else f"Content-Length: {length}\r\n"
    return f"HTTP/1.1 {status}\r\nContent-Type: application/json\r\n{size}{more}Connection: close\r\n\r\n".encode()


def whole(keys, status="200 OK", more=""):
    """Answers with this set, or with this text."""
    body = keys.encode() if isinstance(keys, str) else json.dumps({"keys": keys}).encode()
    return lambda connection: connection.sendall(head(len(body), status, more) + body)


def late(seconds, then):
    """Answers after some seconds."""

    def answer(connection):
        time.sleep(seconds)
        then(connection)

    return answer


def cut(keys):
    """Says another length than that of what it sends, and ends the connection."""
    body = json.dumps({"keys": keys}).encode()
    return lambda connection: connection.sendall(head(len(body) + 1000) + body)


def short(keys):
    """Says a length that is too small."""
    body = json.dumps({"keys": keys}).encode()
    return lambda connection: connection.sendall(head(len(body) - 2) + body)


def close(connection):
    """Ends the connection without an answer."""


def hang(connection):
    """Answers nothing until the other end closes."""
    with contextlib.suppress(OSError):
        connection.recv(1)


def endless(connection):
    """Sends blanks until the other end closes."""
    connection.sendall(head())
    while True:
        connection.sendall(b" " * 65536)


def stop_midway(keys):
    """Sends half of a set, and nothing more until the other end closes."""
    body = json.dumps({"keys": keys}).encode()

    def answer(connection):
        connection.sendall(head(len(body)) + body[: len(body) // 2])
        hang(connection)

    return answer


def memcached(keys):
    """Answers as a memcached does, of which the key is `keys`."""
    body = json.dumps({"keys": keys}).encode()
    return lambda connection: connection.sendall(b"VALUE keys 0 %d\r\n%b\r\nEND\r\n" % (len(body), body))


def frame(kind, flags, stream, payload=b""):
    """Returns a frame of HTTP/2 (RFC 9113 section 4.1)."""
    return len(payload).to_bytes(3, "big") + bytes([kind, flags]) + stream.to_bytes(4, "big") + payload


def http2(keys):
    """Answers by HTTP/2 with the status 200, which is number 8 of the static table, and frames of data of 16 KiB."""
    body = json.dumps({"keys": keys}).encode()
    data = [body[at : at + 16384] for at in range(0, len(body), 16384)]
    frames = [frame(4, 0, 0), frame(1, 4, 1, b"\x88"), *(frame(0, 0, 1, it) for it in data), frame(0, 1, 1)]

    def answer(connection):
        connection.sendall(b"".join(frames))
        # what is not read would reset the connection
        while connection.recv(65536):
            pass

    return answer


class KeyServer:
    """Its answer to each request is `answer`, a call that takes the connection; `asked` has the texts of the requests."""

    def __init__(self, answer=close):
        self.answer, self.asked = answer, []
        self.listener = socket.create_server(("127.0.0.1", 0), backlog=512)
        self.port = self.listener.getsockname()[1]
        threading.Thread(target=self.serve, daemon=True).start()

    def serve(self):
        with contextlib.suppress(OSError):
            while True:
                connection, _ = self.listener.accept()
                threading.Thread(target=self.handle, args=(connection,), daemon=True).start()

    def handle(self, connection):
        with connection, contextlib.suppress(OSError):
            text = b""
            # what memcached is asked is one line
            while (b"\r\n" if text.startswith(b"get ") else b"\r\n\r\n") not in text:
                more = connection.recv(65536)
                if not more:
                    return
                text += more
            self.asked.append(text.decode("latin-1"))
            self.answer(connection)

    def stop(self):
        # a thread that waits in accept is woken
        self.listener.shutdown(socket.SHUT_RDWR)
        self.listener.close()
