"""An application that waits for a reset behind DFU_DETACH, by pyusb (DFU 1.1, 5.1, A.2.2): it leaves at the first request behind that."""
import usb.core
import usb.util

from loader import Loader
from tests.drivers.application import Application
from tirnouch import plug
from tirnouch.dfu import State, chain


class Waiting(Application):
    """Its functional descriptor has no bitWillDetach."""

    will_detach = False


with plug(*chain(Waiting("0107"), Loader())):
    application = usb.core.find(idVendor=0x1209, idProduct=0x0107)
    assert application.ctrl_transfer(0x21, 0, 1000, 1) == 0
    assert application.ctrl_transfer(0xA1, 5, 0, 1, 1)[0] == State.APP_DETACH
    application.reset()
    assert usb.core.find(idProduct=0x0033) is None
    try:
        raise AssertionError(application.ctrl_transfer(0xA1, 5, 0, 1, 1))
    except usb.core.USBError as error:
        assert error.errno == 19, error
    usb.util.dispose_resources(application)
    loader = usb.core.find(idProduct=0x0033)
    assert loader.ctrl_transfer(0xA1, 5, 0, 0, 1)[0] == State.IDLE
    usb.util.dispose_resources(loader)
print("done")
