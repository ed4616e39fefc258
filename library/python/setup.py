"""Makes a wheel for one platform, because of the shared object in it, and for any Python, because ctypes calls it."""
from setuptools import Distribution, setup

try:
    from setuptools.command.bdist_wheel import bdist_wheel
except ImportError:  # before setuptools 70
    from wheel.bdist_wheel import bdist_wheel


class WithObject(Distribution):
    """A distribution that has machine code."""

    def has_ext_modules(self):
        return True


class PlatformWheel(bdist_wheel):
    """A wheel whose tag names only the platform."""

    def get_tag(self):
        return "py3", "none", super().get_tag()[2]


setup(distclass=WithObject, cmdclass={"bdist_wheel": PlatformWheel})
