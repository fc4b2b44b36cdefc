"""Reports by hidapi: what each call returns is by hidapi.h, where the first byte of what is written is the report's id, or 0."""
import hid

knob = hid.device()
knob.open(0x1209, 0x0031)
assert knob.get_product_string() == "Knob"
# The knob tells where it stands when its light changes; a report comes without an id where it has none.
assert knob.write([0, 7]) == 2
assert knob.read(8, 1000) == [0, 7]
assert knob.write([0, 1]) == 2
assert knob.read(8, 1000) == [1, 1]
assert knob.read(8, 50) == []
# A feature report: what was written last.
assert knob.send_feature_report([0, 1, 2, 3, 4]) == 5
assert knob.get_feature_report(0, 5) == [0, 1, 2, 3, 4]
assert knob.write([0, 1, 2]) == -1
knob.close()
print("done")
