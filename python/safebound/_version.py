"""The version of the package, and of the library that it needs."""

VERSION = "0.4.0"
