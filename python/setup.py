"""What pyproject.toml cannot say: the wheel holds the proved library, made by host/shared for this machine's processor, and so is of this kind of machine
and of any Python 3."""
import pathlib
import subprocess

from setuptools import setup
from setuptools.command.build_py import build_py
from setuptools.dist import Distribution

try:
    from setuptools.command.bdist_wheel import bdist_wheel
except ImportError:  # before setuptools 70
    from wheel.bdist_wheel import bdist_wheel

TOP = pathlib.Path(__file__).resolve().parent.parent
# what is made on the way goes where all that is made goes
MADE = TOP / 'target' / 'python'
MADE.mkdir(parents=True, exist_ok=True)


class WithLibrary(build_py):
    def run(self):
        super().run()
        if not getattr(self, 'editable_mode', False):  # an editable install finds the library in target/
            subprocess.run([str(TOP / 'host' / 'shared')], check=True)
            self.copy_file(str(TOP / 'target' / 'shared' / 'libqiksavlut.so'), str(pathlib.Path(self.build_lib, 'qiksavlut')))


class OfThisMachine(Distribution):
    def has_ext_modules(self):
        return True


class AnyPython3(bdist_wheel):
    def get_tag(self):
        return ('py3', 'none') + super().get_tag()[2:]


setup(cmdclass={'build_py': WithLibrary, 'bdist_wheel': AnyPython3}, distclass=OfThisMachine,
      options={'build': {'build_base': str(MADE)}, 'egg_info': {'egg_base': str(MADE)}})
