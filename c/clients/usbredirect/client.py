#!/usr/bin/env python3
"""Serves two devices by `usbredirect --as`, each at a port of the loopback address, and boots QEMU with both by its usb-redir devices.

    client.py USBREDIRECT QEMU MACHINE WORK STICK KEYBOARD

USBREDIRECT and QEMU are the programs. MACHINE has words for QEMU, a line each. WORK is a folder for a file. STICK and KEYBOARD are the
devices, as VENDOR:PRODUCT. Each usbredirect writes a trace of its own, where TIRNOUCH_TRACE asks for one. What QEMU prints is printed,
and its status is the program's; the servers end when QEMU leaves them."""
import os
import pathlib
import socket
import subprocess
import sys
import time

SECONDS = 30
# What /proc/net/tcp has for a socket that listens (Linux, include/net/tcp_states.h), and its column.
LISTENS, STATE, ADDRESS = "0A", 3, 1
# SeaBIOS' etc/usb-time-sigatt: how many milliseconds it waits for a device at a port, where 100 is usual (docs/Runtime_config.md).
WAITED = (3000).to_bytes(4, "little")


def free_port() -> int:
    """A port of the loopback address that nothing uses."""
    with socket.socket() as opened:
        opened.bind(("127.0.0.1", 0))
        port: int = opened.getsockname()[1]
    return port


def listens(port: int) -> bool:
    """Whether a program listens at the port of the loopback address. Connecting would be taken for the one client."""
    wanted = f"0100007F:{port:04X}"
    lines = [line.split() for line in pathlib.Path("/proc/net/tcp").read_text().splitlines()]
    return any(words[ADDRESS] == wanted and words[STATE] == LISTENS for words in lines)


def serve(usbredirect: str, device: str, number: int) -> tuple[subprocess.Popen[bytes], int]:
    """A server of the device, and its port."""
    environment = dict(os.environ)
    if "TIRNOUCH_TRACE" in environment and number > 1:
        environment["TIRNOUCH_TRACE"] += f".{number}"
    port = free_port()
    server = subprocess.Popen([usbredirect, "--device", device, "--as", f"127.0.0.1:{port}"], env=environment)
    end = time.monotonic() + SECONDS
    while not listens(port):
        if server.poll() is not None or time.monotonic() > end:
            server.kill()
            sys.exit(f"client.py: usbredirect doesn't serve {device} at port {port}")
        time.sleep(0.01)
    return server, port


def main() -> None:
    if len(sys.argv) != 7:
        sys.exit(__doc__)
    usbredirect, qemu, machine, work, *devices = sys.argv[1:]
    servers = [serve(usbredirect, device, number) for number, device in enumerate(devices, 1)]
    waited = pathlib.Path(work) / "sigatt"
    waited.write_bytes(WAITED)
    words = [qemu, *pathlib.Path(machine).read_text().split(), "-fw_cfg", f"name=etc/usb-time-sigatt,file={waited}"]
    for number, (_, port) in enumerate(servers):
        words += ["-chardev", f"socket,id=device{number},host=127.0.0.1,port={port}"]
        words += ["-device", f"usb-redir,chardev=device{number},bootindex={number}"]
    environment = {key: value for key, value in os.environ.items() if not key.startswith("TIRNOUCH_")}
    try:
        status = subprocess.run(words, env=environment, stdin=subprocess.DEVNULL, timeout=SECONDS, check=False).returncode
        for server, _ in servers:
            server.wait(SECONDS)
    finally:
        for server, _ in servers:
            server.kill()
    sys.exit(status)


if __name__ == "__main__":
    main()
