"""An application that leaves for its loader, as a program: application.py PRODUCT, in hexadecimal digits."""
from tirnouch import main
from tirnouch.dfu import Runtime
from tirnouch.scpi import Scpi


class Application(Scpi, Runtime):
    """An instrument with a run-time DFU interface."""

    strings = ("Works", "Application", "A1")
    answers = {"*IDN?": "ACME,PM-1,0,1.0"}

    def __init__(self, product: str = "0105") -> None:
        self.product = int(product, 16)


if __name__ == "__main__":
    main(Application)
