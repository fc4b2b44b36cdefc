"""What python3-usb1 makes of transfers: callbacks, new submissions, cancelling, timeouts, its poller, devices that leave."""
import select

import usb1

STATUS = {getattr(usb1, name): name[len("TRANSFER_"):] for name in dir(usb1) if name.startswith("TRANSFER_") and name[9:] in (
    "COMPLETED", "ERROR", "TIMED_OUT", "CANCELLED", "STALL", "NO_DEVICE", "OVERFLOW")}


def show(name):
    """A callback that prints."""
    def call(transfer):
        read = bytes(transfer.getBuffer()[:transfer.getActualLength()]).hex() or "nothing"
        print(name, STATUS[transfer.getStatus()], transfer.getActualLength(), read)
    return call


def bulk(handle, ep, what, name, timeout=0):
    transfer = handle.getTransfer()
    transfer.setBulk(ep, what, show(name), timeout=timeout)
    transfer.submit()
    return transfer


def wait(*transfers):
    while any(transfer.isSubmitted() for transfer in transfers):
        context.handleEvents()


context = usb1.USBContext()
context.open()
for line in sorted(f"{device.getVendorID():04x}:{device.getProductID():04x} {device.getNumConfigurations()} {device.getMaxPacketSize(0x81)}"
                   for device in context.getDeviceIterator()):
    print(line)
handle = context.openByVendorIDAndProductID(0x1209, 3)
print(handle.getManufacturer(), handle.getProduct(), handle.getConfiguration())
print("nobody has it", context.openByVendorIDAndProductID(0x1209, 9))
with handle.claimInterface(0), handle.claimInterface(1):
    seen = []

    def again(transfer):
        """Submits it anew, until it came three times."""
        seen.append(bytes(transfer.getBuffer()[:transfer.getActualLength()]).hex())
        if len(seen) < 3:
            transfer.submit()

    first = handle.getTransfer()
    first.setBulk(0x81, 64, again)
    first.submit()
    wait(first)
    print("again", seen)

    late = bulk(handle, 0x81, 64, "cancelled")
    context.handleEventsTimeout(0.02)
    late.cancel()
    wait(late)
    late = bulk(handle, 0x81, 64, "late", timeout=30)
    wait(late)

    poller = usb1.USBPoller(context, select.poll())
    read = bulk(handle, 0x81, 64, "read")
    write = bulk(handle, 0x02, b"go", "written")
    while read.isSubmitted() or write.isSubmitted():
        poller.poll(1)

    asked = handle.getTransfer()
    asked.setControl(0xC0, 1, 0, 0, 4, show("asked"))
    asked.submit()
    refused = handle.getTransfer()
    refused.setControl(0xC0, 2, 0, 0, 4, show("refused"))
    refused.submit()
    wait(asked, refused)

    interrupt = handle.getTransfer()
    interrupt.setInterrupt(0x83, 8, show("interrupt"))
    interrupt.submit()
    wait(interrupt)
    three = [bulk(handle, 0x81, 2, f"of three, number {i}") for i in range(3)]
    wait(bulk(handle, 0x02, b"go on", "written"))
    wait(*three)
    print("read", bytes(handle.controlRead(0xC0, 1, 0, 0, 2)).hex())
    try:
        handle.interruptRead(0x83, 8, timeout=30)
    except usb1.USBErrorTimeout as error:
        print("interrupt", error, bytes(error.received).hex() or "nothing")
handle.close()

handle = context.openByVendorIDAndProductID(0x1209, 4)
handle.claimInterface(0)
leaving = [bulk(handle, 0x81, 64, f"leaving, number {i}") for i in range(3)]
request = handle.getTransfer()
request.setControl(0xC0, 1, 0, 0, 1)
request.submit()
wait(*leaving)
for name, call in (("submission", lambda: bulk(handle, 0x81, 64, "never")), ("release", lambda: handle.releaseInterface(0))):
    try:
        call()
    except usb1.USBErrorNoDevice as error:
        print(name, error)
handle.close()
print("left", sum(1 for device in context.getDeviceIterator()))
try:
    context.close()
except AssertionError:
    # python3-usb1 2.0.1 can't close a context that had a poller: what undoes the poller isn't taken out of its list.
    pass
print("end")
