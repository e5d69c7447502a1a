"""Unpacks zip files with Python's zipfile: each of the given folder, N.zip, to a line 'N NAME=BYTES NAME=BYTES', in hex, or 'N error WORDS'."""
import os
import pathlib
import sys
import tempfile
import zipfile


def unpacked(path):
    with tempfile.TemporaryDirectory() as folder, zipfile.ZipFile(path) as zip_file:
        zip_file.extractall(folder)
        for place, _, names in os.walk(os.fsencode(folder)):
            for name in names:
                file = os.path.join(place, name)
                yield os.path.relpath(file, os.fsencode(folder)), open(file, "rb").read()


for path in sorted(pathlib.Path(sys.argv[1]).glob("*.zip")):
    try:
        files = " ".join(f"{name.hex()}={content.hex()}" for name, content in unpacked(path))
        print(path.stem, files)
    except Exception as error:
        print(path.stem, "error", repr(error))
