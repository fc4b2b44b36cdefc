"""The wheel has the library inside, so it is one of a platform: what stands in bin/ of the repository goes into the package, and with it
the part of tools/ that makes devices of a recording. pyproject.toml says the rest."""
import pathlib
import shutil
from typing import Tuple

from setuptools import Distribution, setup
from setuptools.command.build_py import build_py

try:
    from setuptools.command.bdist_wheel import bdist_wheel
except ImportError:
    from wheel.bdist_wheel import bdist_wheel

ROOT = pathlib.Path(__file__).resolve().parent.parent
LIBRARY, USBTRACE, RUNS = ROOT / "bin" / "libusb-1.0.so.0", ROOT / "bin" / "usbtrace", ROOT / "tools" / "runs"


class BuildWithLibrary(build_py):
    """The package's files, and those of the repository beside them."""

    def run(self) -> None:
        super().run()
        if getattr(self, "editable_mode", False):
            return
        if not LIBRARY.is_file():
            raise SystemExit(f"there is no {LIBRARY}, which goes into the package: build it by `make c-try`, or `make c-usb`")
        package = pathlib.Path(self.build_lib) / "tirnouch"
        (package / "lib").mkdir(parents=True, exist_ok=True)
        for file in (LIBRARY, USBTRACE):
            if file.is_file():
                shutil.copy(file, package / "lib" / file.name)
        (package / "runs").mkdir(exist_ok=True)
        for file in RUNS.glob("*.py"):
            shutil.copy(file, package / "runs" / file.name)


class WheelOfPlatform(bdist_wheel):
    """For any Python 3 of this platform: the library isn't linked with Python."""

    def get_tag(self) -> Tuple[str, str, str]:
        return "py3", "none", super().get_tag()[2]


class WithLibrary(Distribution):
    """What it has is of a platform, as an extension module is."""

    def has_ext_modules(self) -> bool:
        return True


setup(distclass=WithLibrary, version=(ROOT / "VERSION").read_text().strip(),
      cmdclass={"build_py": BuildWithLibrary, "bdist_wheel": WheelOfPlatform})
