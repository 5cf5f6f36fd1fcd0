"""The wheel has a library for one kind of machine in it, and runs with each version of Python."""

import setuptools
from wheel.bdist_wheel import bdist_wheel


class WithLibrary(setuptools.Distribution):
    def has_ext_modules(self) -> bool:
        return True


class Wheel(bdist_wheel):
    def get_tag(self) -> "tuple[str, str, str]":
        return "py3", "none", super().get_tag()[2]


setuptools.setup(distclass=WithLibrary, cmdclass={"bdist_wheel": Wheel})
