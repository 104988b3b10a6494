"""What pyproject.toml cannot say: the version is the one in the file VERSION, and the wheel carries libchi.so."""

import os
import pathlib
import shutil
import tempfile

import setuptools
from setuptools.command.build_py import build_py

try:
    from setuptools.command.bdist_wheel import bdist_wheel
except ImportError:  # setuptools before 70.1
    from wheel.bdist_wheel import bdist_wheel

HERE = pathlib.Path(__file__).resolve().parent
# Seen from this folder: out/ of the repository, and lib/ of the prefix where this is share/chi/python.
FOLDERS = ["../out", "../../../lib"]


def fault(text):
    """What ends the build, with one line that pip shows."""
    return SystemExit(f"chi-home: {text}")


def version():
    """The version of the repository, or of what was installed below the prefix."""
    file = HERE.parent / "VERSION"
    if not file.is_file():
        raise fault(f"no {file}: install from the repository or from PREFIX/share/chi/python, with pip 21.3 or later")
    return file.read_text(encoding="utf-8").strip()


def library():
    """The libchi.so that CHI_LIBRARY names, or else the one that was built or installed."""
    named = os.environ.get("CHI_LIBRARY")
    if named and not os.path.isabs(named):
        raise fault(f"CHI_LIBRARY is {named}, and must be a whole path here, since pip builds in another folder")
    places = [named] if named else [os.path.normpath(HERE / folder / "libchi.so") for folder in FOLDERS]
    for it in places:
        if os.path.isfile(it):
            return it
    raise fault(f"no library at {' or '.join(places)}: make lib first, or name a library in CHI_LIBRARY")


class BuildWithLibrary(build_py):
    """Builds the module, and puts the library beside it."""

    def run(self):
        """Copies both. An editable install copies nothing: it uses the module and the library where they are."""
        found = library()
        super().run()
        if not getattr(self, "editable_mode", False):
            shutil.copy(found, os.path.join(self.build_lib, "chi", "libchi.so"))


class PlatformDistribution(setuptools.Distribution):
    """A distribution for one platform, though setuptools compiles nothing."""

    def has_ext_modules(self):
        """Says that there is machine code."""
        return True


class PlatformWheel(bdist_wheel):
    """A wheel for every Python 3 on its platform, since ctypes loads the library."""

    def get_tag(self):
        """The tag py3-none-PLATFORM."""
        return "py3", "none", super().get_tag()[2]


if int(setuptools.__version__.split(".")[0]) < 61:
    raise fault(f"setuptools {setuptools.__version__} does not read pyproject.toml: setuptools 61 or later is needed")

# Nothing is built in this folder, so that the repository stays clean and a prefix may be read-only.
with tempfile.TemporaryDirectory() as folder:
    setuptools.setup(
        version=version(),
        distclass=PlatformDistribution,
        cmdclass={"build_py": BuildWithLibrary, "bdist_wheel": PlatformWheel},
        options={"build": {"build_base": folder}, "egg_info": {"egg_base": folder}},
    )
