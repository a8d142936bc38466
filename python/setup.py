"""Makes a wheel that has libjri one of a platform, which JRI_WHEEL_PLATFORM names. pyproject.toml has all else."""

import os

from setuptools import Distribution, setup

PLATFORM = os.environ.get("JRI_WHEEL_PLATFORM")


def options():
    if PLATFORM is None:
        return {}
    from wheel.bdist_wheel import bdist_wheel

    class PlatformWheel(bdist_wheel):
        def get_tag(self):
            return "py3", "none", PLATFORM

    class PlatformDistribution(Distribution):
        def has_ext_modules(self):
            return True

    return {"cmdclass": {"bdist_wheel": PlatformWheel}, "distclass": PlatformDistribution}


setup(**options())
