"""Writes files whole or not at all."""
import os
import tempfile


def write_whole(name, data):
    """Writes the bytes of a file beside its place first. What isn't a file, as a pipe, is written to as it is."""
    if os.path.exists(name) and not os.path.isfile(name):
        with open(name, 'wb') as file:
            file.write(data)
        return
    place = os.path.realpath(name)
    handle, beside = tempfile.mkstemp(dir=os.path.dirname(place), prefix='.written')
    try:
        with open(handle, 'wb') as file:
            file.write(data)
        os.chmod(beside, os.stat(place).st_mode & 0o777 if os.path.exists(place) else 0o666 & ~umask())
        os.replace(beside, place)
    except BaseException:
        os.unlink(beside)
        raise


def umask():
    mask = os.umask(0)
    os.umask(mask)
    return mask
