"""Finds modules of Debian's packages. They lie in Debian's own folder, in which a Python of another place doesn't look."""
import importlib
import sys

FOLDER = '/usr/lib/python3/dist-packages'


def module(name):
    """The module of that name, or None where there is none."""
    try:
        return importlib.import_module(name)
    except ImportError:
        pass
    sys.path.append(FOLDER)
    try:
        return importlib.import_module(name)
    except ImportError:
        return None
    finally:
        sys.path.remove(FOLDER)
