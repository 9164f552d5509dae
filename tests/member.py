"""A member of an etcd for the tests, which answers by a script, or from pairs in memory."""
import base64
import json
import socket
import threading
import time

# Seconds in which a request has to come whole.
PATIENCE = 60


def response(status, body):
    """The bytes of a response after which the connection is closed."""
    head = f"HTTP/1.1 {status} Status\r\nConnection: close\r\nContent-Length: {len(body.encode())}\r\n\r\n"
    return (head + body).encode()


class Member(threading.Thread):
    """Takes one connection after another. `reply` gives the bytes for a request's path and body, or `None` if the connection stays
    open without an answer."""

    def __init__(self, reply):
        super().__init__(daemon=True)
        self.reply, self.held, self.is_over = reply, [], False
        self.listener = socket.create_server(("127.0.0.1", 0))
        self.listener.settimeout(0.02)
        self.start()

    @property
    def port(self):
        return self.listener.getsockname()[1]

    def run(self):
        while not self.is_over:
            try:
                stream, _ = self.listener.accept()
            except TimeoutError:
                continue
            self.answer(stream)

    def answer(self, stream):
        stream.settimeout(PATIENCE)
        try:
            reply = self.reply(*request(stream))
            if reply is None:
                self.held.append(stream)
                return
            stream.sendall(reply)
        except OSError:
            pass
        stream.close()

    def end(self):
        self.is_over = True
        self.join()
        for stream in (self.listener, *self.held):
            stream.close()


def request(stream):
    """Path and body of the request that comes. An `OSError` if it doesn't come whole."""
    data = b""
    while b"\r\n\r\n" not in data:
        data += received(stream)
    head, _, body = data.partition(b"\r\n\r\n")
    first, *fields = head.decode().split("\r\n")
    length = next(int(field.split(":")[1]) for field in fields if field.lower().startswith("content-length:"))
    while len(body) < length:
        body += received(stream)
    return first.split()[1], body.decode()


def received(stream):
    part = stream.recv(65536)
    if not part:
        raise ConnectionError("the request is cut off")
    return part


class Script:
    """Acts on the next requests, in turn. `amiss` has what came otherwise."""

    def __init__(self):
        self.acts, self.amiss = [], []

    def __call__(self, path, body):
        if not self.acts:
            self.amiss.append(f"but it asked more: {path} {body}")
            return response(400, '{"message":"no act is left","code":3}')
        act, *words = self.acts[0]
        if act == "hangs":
            return None
        self.acts.pop(0)
        if act == "tells" and words[0] not in body:
            self.amiss.append(f"but it asked, in place of {words[0]}: {path} {body}")
        if act == "waits":
            time.sleep(words[0] / 1000)
        replies = {"answers": lambda: response(*words), "tells": lambda: response(200, words[1]),
                   "cuts-off": lambda: b"HTTP/1.1 200 OK\r\nContent-Length: 9\r\n\r\n{"}
        return replies.get(act, lambda: b"")()

    def ended(self):
        """Clears the script, and returns what came otherwise, a line each."""
        left = [act for act, *_ in self.acts if act != "hangs"]
        amiss = self.amiss + ([f"but these acts are left: {' '.join(left)}"] if left else [])
        self.acts, self.amiss = [], []
        return amiss


class Memory:
    """Pairs as an etcd keeps them: each key's value and revision. From the load of a handler after `loads` of them, the handlers are
    gone. If it disowns, the owners' tokens are gone after the first put of a handler."""

    def __init__(self, loads=-1, disowns=False):
        self.loads, self.disowns, self.revision, self.pairs = loads, disowns, 1, {}

    def __call__(self, path, body):
        asked = json.loads(body)
        told = self.found(asked) if path.endswith("/range") else self.made(asked)
        return response(200, json.dumps({"header": {"revision": str(self.revision)}, **told}))

    def found(self, asked):
        first = base64.b64decode(asked["key"])
        end = base64.b64decode(asked["range_end"]) if "range_end" in asked else first + b"\0"
        if b"/handlers/" in first:
            self.load()
        kvs = [{"key": text(key), "mod_revision": str(revision), "value": text(value)}
               for key, (revision, value) in sorted(self.pairs.items()) if first <= key < end]
        return {"kvs": kvs} if kvs else {}

    def load(self):
        if self.loads == 0:
            self.lose(b"/handlers/")
        self.loads -= 1

    def lose(self, part):
        self.pairs = {key: pair for key, pair in self.pairs.items() if part not in key}

    def made(self, asked):
        if not all(map(self.is_so, asked["compare"])):
            return {}
        self.revision += 1
        for put in asked["success"]:
            key, value = (base64.b64decode(put["request_put"].get(name, "")) for name in ("key", "value"))
            self.pairs[key] = self.revision, value
            if self.disowns and b"/handlers/" in key:
                self.lose(b"/owner/")
        return {"succeeded": True}

    def is_so(self, compare):
        revision, value = self.pairs.get(base64.b64decode(compare["key"]), (0, None))
        if compare["target"] == "MOD":
            return revision == int(compare.get("mod_revision", 0))
        return value == base64.b64decode(compare.get("value", ""))


def text(data):
    return base64.b64encode(data).decode()
