#!/usr/bin/env python3
"""A loader that leaves (DFU): it takes firmware that ends with the sum of its bytes, and becomes another device with it."""
from typing import Optional

import tirnouch as t


class Loader(t.Dfu):
    ids = (0x1209, 0x0033)
    will_detach = True

    def manifested(self, firmware: bytes) -> Optional[t.dfu.Status]:
        is_sound = sum(firmware[:-1]) & 255 == firmware[-1]
        return None if is_sound else t.dfu.Status.ERR_FIRMWARE


if __name__ == "__main__":
    t.main(Loader)
