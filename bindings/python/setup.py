"""Builds the package with the library for C in it, and with its helper.

The library is the one that DUNKELVA_LIBRARY names, or that `make library` left in out/library. It
is a shared library of x86-64 Linux and no module of Python. The helper keeps to the stable ABI, and
the package does without it where it can't be compiled or loaded. So a wheel serves every Python 3.
"""
import os
import pathlib
import re
import shutil
import subprocess

from setuptools import Extension, setup
from setuptools.command.build_py import build_py
from setuptools.dist import Distribution
from wheel.bdist_wheel import bdist_wheel

HERE = pathlib.Path(__file__).resolve().parent
TOP = HERE.parent.parent


def header():
    """Finds the header of the library."""
    for file in (HERE / "dunkelva.h", TOP / "bindings/c/dunkelva.h"):
        if file.exists():
            return file
    raise SystemExit("dunkelva: there is no header dunkelva.h of the library")


def version():
    """Returns the version that the header of the library has."""
    return re.search(r'DUNKELVA_VERSION "(.*)"', header().read_text())[1]


class WithLibrary(build_py):
    """Copies the library into the package."""

    def run(self):
        super().run()
        built = pathlib.Path(os.environ.get("DUNKELVA_LIBRARY")
                             or TOP / "out/library/libdunkelva.so")
        if not built.exists():
            raise SystemExit(f"dunkelva: there is no library {built}: run `make library` first, or "
                             "name one by DUNKELVA_LIBRARY")
        copy = pathlib.Path(self.build_lib) / "dunkelva/libdunkelva.so"
        shutil.copyfile(built.resolve(), copy)
        copy.chmod(0o755)
        subprocess.run(["strip", "--strip-unneeded", str(copy)], check=True)


class ForLinux(bdist_wheel):
    """Names the wheel by its platform, for every Python 3."""

    def get_tag(self):
        return "py3", "none", "linux_x86_64"


class WithBinary(Distribution):
    """A package with a file of one platform."""

    def has_ext_modules(self):
        return True


HELPER = Extension("dunkelva._quick", ["quick.c"], include_dirs=[str(header().parent)],
                   depends=[str(header())], py_limited_api=True, optional=True,
                   extra_compile_args=["-std=c99", "-O2", "-g0"],
                   extra_link_args=["-Wl,--strip-all", "-Wl,-z,relro,-z,now,-z,noexecstack"])

setup(version=version(), ext_modules=[HELPER], distclass=WithBinary,
      cmdclass={"build_py": WithLibrary, "bdist_wheel": ForLinux})
