"""One process of the try: it registers and unregisters services at random, and prints at each turn when it is, how many services it knows,
and the digest that it holds."""

from __future__ import annotations

import argparse
import random
import time

from registry import Registry


def main() -> None:
    parser = argparse.ArgumentParser(description=__doc__.splitlines()[0])
    parser.add_argument("name", type=int, help="a name that no other process has or ever had")
    parser.add_argument("file", help="where it keeps its replica, and comes back from")
    parser.add_argument("--port", type=int, default=1883, help="the broker's port on this machine")
    parser.add_argument("--drop", type=float, default=0.0, help="the share of messages that is lost on the way here")
    parser.add_argument("--writes", type=int, default=30, help="how often it registers or unregisters a service")
    parser.add_argument("--seconds", type=float, default=10.0, help="how long it then takes in what comes")
    given = parser.parse_args()
    registry = Registry(given.name, given.file, given.port, given.drop)

    def log(*_: object) -> None:
        print(f"{time.time():.2f} {registry.replica.size()} {(registry.replica.digest() or b'').hex() or '-'}", flush=True)

    registry.watch("api-1", log)
    for turn in range(given.writes):
        service = f"api-{random.randrange(12)}"
        address = f"10.0.0.{given.name % 256}:{8000 + turn}"
        registry.register(service, address) if random.random() < 0.8 else registry.unregister(service)
        registry.run(random.uniform(0.05, 0.3))
        log()
    for _ in range(int(given.seconds * 4)):
        registry.run(0.25)
        log()


if __name__ == "__main__":
    main()
