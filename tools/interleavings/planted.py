"""Functions of a built program that do nothing: the first byte of each becomes that of a return."""
import pathlib
import re
import shutil
import subprocess
from typing import List, Tuple

RETURN = b"\xc3"


class NotThere(Exception):
    """No function has this name."""


def symbols(program: pathlib.Path) -> List[Tuple[int, str]]:
    """The address of each function, and its name without its types."""
    lines = subprocess.run(["nm", program], check=True, capture_output=True, text=True).stdout.splitlines()
    found = [re.match(r"([0-9a-f]+) [tT] (.*)", line) for line in lines]
    return [(int(it[1], 16), re.sub(r"::<.*", "", it[2].strip('"'))) for it in found if it]


def place_of(program: pathlib.Path, address: int) -> int:
    """Where the byte of an address stands in the file."""
    text = subprocess.run(["readelf", "-lW", program], check=True, capture_output=True, text=True).stdout
    for found in re.finditer(r"LOAD +(0x[0-9a-f]+) (0x[0-9a-f]+) 0x[0-9a-f]+ (0x[0-9a-f]+)", text):
        offset, begin, size = (int(it, 16) for it in found.groups())
        if begin <= address < begin + size:
            return offset + address - begin
    raise NotThere(hex(address))


def do_nothing(program: pathlib.Path, function: str, to: pathlib.Path) -> int:
    """A copy of the program in which all functions of this name do nothing: how many they are."""
    addresses = [address for address, name in symbols(program) if name == function]
    if not addresses:
        raise NotThere(function)
    shutil.copy(program, to)
    with to.open("r+b") as file:
        for address in addresses:
            file.seek(place_of(program, address))
            file.write(RETURN)
    return len(addresses)
