"""What a worker of a cluster does for daig-check. It has none of these modules: this text goes to it with each task.

So it needs nothing but the standard library and Dask.
"""
from __future__ import annotations

import os
import shutil
import signal
import subprocess
import sys
import tempfile
import zipfile
from importlib import import_module
from io import BytesIO


def answer(package: bytes, digest: str, request: bytes, seconds: float) -> tuple[str, bytes, str]:
    """Has a request answered by a process of its own, which runs a package and takes at most so many seconds.

    Answers the worker's address, what the process wrote, and why that is not all, if so.
    """
    worker = import_module("distributed").get_worker()
    try:
        folder = _unpacked(package, os.path.join(worker.local_directory, f"daig-check-{digest}"))
        return (str(worker.address), *_run([sys.executable, "-I", folder], request, seconds))
    except OSError as error:
        return str(worker.address), b"", str(error)


def _unpacked(package: bytes, folder: str) -> str:
    """A folder of the worker with the files of a package."""
    if not os.path.isdir(folder):
        new = tempfile.mkdtemp(dir=os.path.dirname(folder))
        with zipfile.ZipFile(BytesIO(package)) as files:
            files.extractall(new)
        try:
            os.rename(new, folder)
        except OSError:  # another task was faster
            shutil.rmtree(new)
            if not os.path.isdir(folder):
                raise
    return folder


def _run(words: list[str], request: bytes, seconds: float) -> tuple[bytes, str]:
    """What a process writes, and why it did not end well, if so."""
    pipe = subprocess.PIPE
    with subprocess.Popen(words, stdin=pipe, stdout=pipe, stderr=pipe, start_new_session=True) as process:
        try:
            output, errors = process.communicate(request, seconds)
        except subprocess.TimeoutExpired:
            os.killpg(process.pid, signal.SIGKILL)
            return process.communicate()[0], f"it did not end within {seconds:g} seconds"
    if process.returncode == 0:
        return output, ""
    lines = errors.decode("utf-8", "replace").split("\n")
    last = [it for it in lines if it.strip()][-1:]
    return output, last[0] if last else f"it ended with status {process.returncode}"
