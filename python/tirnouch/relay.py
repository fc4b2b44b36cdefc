"""A `program` of a text of devices that has no device itself: it passes the questions on to the process whose socket it is given, and the
answers back. It needs nothing but Python: python3 -I -S relay.py SOCKET."""
import os
import socket
import sys
import threading

MOST = 65536


def pass_on(source: int, target: int) -> None:
    """Bytes, until there are none."""
    while True:
        data = os.read(source, MOST)
        if not data:
            return
        while data:
            data = data[os.write(target, data) :]


def main() -> None:
    """Until either side has ended: the library ends a program by the end of its input."""
    with socket.socket(socket.AF_UNIX, socket.SOCK_STREAM) as it:
        it.connect(sys.argv[1])

        def answers() -> None:
            try:
                pass_on(it.fileno(), 1)
            finally:
                os._exit(0)

        threading.Thread(target=answers, daemon=True).start()
        pass_on(0, it.fileno())


if __name__ == "__main__":
    main()
