"""The friendly command around the proved program. It explains faults, helps, and finds files; it changes no result."""
import os
import sys

# The package `safebound` decodes texts. It is beside this folder where the command is installed, and in python/ of the
# repository.
_BESIDE = os.path.dirname(os.path.dirname(os.path.realpath(__file__)))
_REPOSITORY = os.path.join(os.path.dirname(_BESIDE), "python")
sys.path.insert(0, _BESIDE if os.path.isdir(os.path.join(_BESIDE, "safebound")) else _REPOSITORY)


def version() -> str:
    """The version of the package `safebound`. The package is loaded only here: that takes a while, and few runs need
    it.
    """
    from safebound._version import VERSION
    return VERSION
