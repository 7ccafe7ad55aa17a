"""The library installed once for all tests, and its callers, each built at the first request.

The folder is removed when all tests are done.
"""
import atexit
import functools
import pathlib
import tempfile

from tests import callers


@functools.cache
def room():
    """The folder in which the library is installed, and callers are built."""
    folder = tempfile.TemporaryDirectory(prefix="installed-")
    atexit.register(folder.cleanup)
    place = pathlib.Path(folder.name).resolve()
    callers.install(place)
    return place


def prefix():
    return room() / "prefix"


@functools.cache
def sanitizers():
    """The flags of the compiler's sanitizers, if it has them."""
    return callers.sanitizers(room())


@functools.cache
def in_c(name):
    """A caller in C."""
    return callers.in_c(room(), name)


@functools.cache
def in_c_sanitized(name):
    """A caller in C with the compiler's sanitizers, if it has them."""
    return callers.in_c(room(), name, *sanitizers())


@functools.cache
def in_cxx_sanitized(name, standard):
    """A caller in C++ with the compiler's sanitizers, if it has them."""
    return callers.in_cxx(room(), name, standard, *sanitizers())


@functools.cache
def in_rust():
    """The examples in Rust, by their names."""
    return callers.in_rust(room())


def in_rust_here():
    return callers.in_rust_here(room())


@functools.cache
def in_python(name):
    """An example in Python over the module that is installed, as a program."""
    return callers.in_python(room(), name)
