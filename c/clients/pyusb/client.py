"""What pyusb makes of a device: its descriptors, its requests, transfers and how they fail."""
import usb.core
import usb.util


def tried(name, call):
    """Prints what a call gives, or the number of its error."""
    try:
        print(name, call())
    except usb.core.USBError as error:
        print(name, "error", error.errno)


def read(endpoint, size, timeout=5000):
    return bytes(device.read(endpoint, size, timeout)).hex() or "nothing"


print("devices", len(list(usb.core.find(find_all=True))))
device = usb.core.find(idVendor=0x1209, idProduct=0x0002)
print(f"{device.idVendor:04x}:{device.idProduct:04x} {device.bcdUSB:04x} {device.bcdDevice:04x}")
print(device.manufacturer, device.product, device.serial_number)
print("speed", device.speed, "full" if device.speed == usb.util.SPEED_FULL else "")
print("languages", device.langids)
for interface in device.get_active_configuration():
    print("interface", interface.bInterfaceNumber, interface.bAlternateSetting, f"class {interface.bInterfaceClass:02x}")
    for ep in interface:
        print(f"  endpoint {ep.bEndpointAddress:02x} attributes {ep.bmAttributes} size {ep.wMaxPacketSize} interval {ep.bInterval}")
tried("configuration", device.set_configuration)
tried("request", lambda: bytes(device.ctrl_transfer(0xC0, 1, 2, 3, 100)).hex())
tried("request", lambda: bytes(device.ctrl_transfer(0xC0, 1, 2, 3, 100)).hex())
tried("request", lambda: device.ctrl_transfer(0x40, 2, 0, 0, b"abc"))
tried("request", lambda: device.ctrl_transfer(0x40, 3, 0, 0, b"abc"))
tried("read", lambda: read(0x81, 128))
tried("read", lambda: read(0x81, 128))
device.clear_halt(0x81)
tried("read", lambda: read(0x81, 128))
tried("read", lambda: read(0x81, 128, 50))
tried("read", lambda: read(0x81, 128, 50))
tried("write", lambda: device.write(0x02, bytes(130)))
tried("write", lambda: device.write(0x02, bytes(65)))
device.clear_halt(0x02)
tried("write", lambda: device.write(0x02, b"x"))
tried("read", lambda: read(0x81, 128))
tried("read", lambda: read(0x81, 128))
tried("read", lambda: read(0x81, 2))
print("driver", device.is_kernel_driver_active(0), device.is_kernel_driver_active(1))
tried("claim", lambda: usb.util.claim_interface(device, 1))
tried("detach", lambda: device.detach_kernel_driver(1))
print("driver", device.is_kernel_driver_active(1))
tried("interrupt", lambda: read(0x83, 8))
tried("interrupt", lambda: read(0x83, 8))
tried("interrupt", lambda: read(0x83, 8, 50))
tried("setting", lambda: device.set_interface_altsetting(0, 0))
usb.util.dispose_resources(device)
print("end")
