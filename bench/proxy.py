#!/usr/bin/env python3
"""A proxy that delays and loses datagrams: python3 bench/proxy.py [--rtt MS] [--loss PERCENT] FROM=TO ..

It listens at each port FROM of the loopback and passes what comes to the port TO, after half a round trip. Standard error
gets the counts at its end. `network.py` uses the class to measure a system.
"""
import argparse, heapq, random, selectors, socket, sys, threading, time


class Proxy(threading.Thread):
    """Passes datagrams on until it is stopped. For each route it counts those that came, those lost, and different ones."""

    def __init__(self, routes, rtt, loss, seed=1):
        super().__init__(daemon=True)
        self.half, self.loss, self.random = rtt / 2000, loss / 100, random.Random(seed)
        self.stopped, self.selector, self.waiting = False, selectors.DefaultSelector(), []
        self.out = socket.socket(socket.AF_INET, socket.SOCK_DGRAM)
        self.came, self.lost, self.kinds = {}, {}, {}
        for port, to in routes.items():
            s = socket.socket(socket.AF_INET, socket.SOCK_DGRAM)
            s.bind(("127.0.0.1", port))
            s.setblocking(False)
            self.selector.register(s, selectors.EVENT_READ, (port, to))
            self.came[port], self.lost[port], self.kinds[port] = 0, 0, set()

    def take(self, s, port, to):
        while True:
            try:
                data = s.recv(2048)
            except BlockingIOError:
                return
            self.came[port] += 1
            self.kinds[port].add(data)
            if self.random.random() < self.loss:
                self.lost[port] += 1
            else:
                heapq.heappush(self.waiting, (time.perf_counter() + self.half, self.came[port], port, to, data))

    def run(self):
        while not self.stopped:
            wait = self.waiting[0][0] - time.perf_counter() if self.waiting else 0.05
            for key, _ in self.selector.select(max(0, wait)):
                self.take(key.fileobj, *key.data)
            while self.waiting and self.waiting[0][0] <= time.perf_counter():
                _, _, _, to, data = heapq.heappop(self.waiting)
                self.out.sendto(data, ("127.0.0.1", to))


def main():
    parser = argparse.ArgumentParser()
    parser.add_argument("--rtt", type=float, default=100)
    parser.add_argument("--loss", type=float, default=0)
    parser.add_argument("routes", nargs="+")
    given = parser.parse_args()
    proxy = Proxy({int(a): int(b) for a, b in (r.split("=") for r in given.routes)}, given.rtt, given.loss)
    try:
        proxy.run()
    except KeyboardInterrupt:
        for port in proxy.came:
            print(f"{port}: {proxy.came[port]} came, {proxy.lost[port]} lost, {len(proxy.kinds[port])} different", file=sys.stderr)


if __name__ == "__main__":
    main()
