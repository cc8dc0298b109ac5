"""What pyproject.toml can't say: the package holds a shared object, which has to be there and is of one platform."""
from pathlib import Path

from setuptools import Distribution, setup

if not Path(__file__).with_name("rds").joinpath("librds.so").exists():
    raise SystemExit("rds/librds.so isn't there: run bindings/build first")


class WithSharedObject(Distribution):
    def has_ext_modules(self) -> bool:
        return True


setup(distclass=WithSharedObject)
