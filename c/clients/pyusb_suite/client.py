"""client.py FOLDER: runs pyusb's tests/testall.py in its folder, its files in the order of their names: in that order devices.txt has
the data that the tests want back."""
import glob
import os
import runpy
import sys

in_any_order = glob.glob
glob.glob = lambda *words, **more: sorted(in_any_order(*words, **more))
os.chdir(sys.argv[1])
sys.path.insert(0, sys.argv[1])
sys.argv = ["testall.py"]
runpy.run_path("testall.py", run_name="__main__")
