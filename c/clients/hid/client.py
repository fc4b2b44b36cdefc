"""What python3-hid makes of a device, over hidapi's library."""
import hid

for info in hid.enumerate():
    print(f"{info['vendor_id']:04x}:{info['product_id']:04x}", *(info[f"{key}_string"] for key in ("manufacturer", "product")))
device = hid.device()
device.open(0x1209, 5)
print(device.get_manufacturer_string(), device.get_product_string(), device.get_serial_number_string())
print("read", device.read(8, 5000))
print("read", device.read(4, 5000))
print("read", device.read(8, 30))
print("write", device.write([0] + [7] * 8))
print("read", device.read(8, 5000))
print("feature", device.get_feature_report(5, 3))
print("feature", device.send_feature_report([5, 1, 2]))
print("feature", device.send_feature_report([6, 1, 2]))
device.set_nonblocking(1)
print("read", device.read(8))
device.close()
print("end")
