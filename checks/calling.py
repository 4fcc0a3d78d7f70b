"""A call of a program whose output goes to files without names: no write waits for a reader."""
import os
import select
import subprocess
import tempfile


def written(file):
    file.seek(0)
    return file.read()


def ends_within(process, seconds):
    """Whether a process ends in so many seconds. It isn't asked again and again, as by `subprocess.run` where there is no pipe."""
    file = os.pidfd_open(process.pid)
    try:
        return bool(select.select([file], [], [], seconds)[0])
    finally:
        os.close(file)


def called(words, folder=None, seconds=None):
    """What a program with these words leaves, as by `subprocess.run`."""
    with tempfile.TemporaryFile() as out, tempfile.TemporaryFile() as err, subprocess.Popen(words, cwd=folder, stdout=out, stderr=err) as process:
        if seconds is not None and not ends_within(process, seconds):
            process.kill()
            raise subprocess.TimeoutExpired(words, seconds)
        return subprocess.CompletedProcess(words, process.wait(), written(out), written(err))
