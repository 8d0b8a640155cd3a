"""Packs folders so that the same files give the same bytes: in one order, of one time, of nobody."""

import gzip
import os
import tarfile
import time
import zipfile
from pathlib import Path


def members(folder):
    """All that is below a folder, folders before what is in them."""
    return sorted(Path(folder).rglob("*"), key=lambda it: it.relative_to(folder).parts)


def settle(folder, seconds):
    """Gives all below a folder one time, and the rights that files and programs have."""
    for path in [*members(folder), Path(folder)]:
        if not path.is_symlink():
            path.chmod(0o755 if path.is_dir() or os.access(path, os.X_OK) else 0o644)
        os.utime(path, (seconds, seconds), follow_symlinks=False)


def tar_gz(folder, name, file, seconds, with_folders=True):
    """Packs a folder, as a folder of another name."""
    settle(folder, seconds)
    with open(file, "wb") as out, gzip.GzipFile("", "wb", 9, out, mtime=0) as packed:
        with tarfile.open(fileobj=packed, mode="w", format=tarfile.GNU_FORMAT) as tar:
            for path in [Path(folder), *members(folder)]:
                if path.is_dir() and not with_folders:
                    continue
                info = tar.gettarinfo(path, str(Path(name, path.relative_to(folder))))
                info.uid = info.gid = 0
                info.uname = info.gname = ""
                if info.isreg():
                    with open(path, "rb") as it:
                        tar.addfile(info, it)
                else:
                    tar.addfile(info)


def wheel_file(folder, file, seconds):
    """Packs a folder as a wheel: the folder that tells of it stands last."""
    # A zip file knows no time before 1980.
    when = time.gmtime(max(seconds, 315532800))[:6]
    settle(folder, seconds)
    paths = sorted((it for it in members(folder) if it.is_file()), key=lambda it: (".dist-info" in str(it.relative_to(folder)), it))
    with zipfile.ZipFile(file, "w", zipfile.ZIP_DEFLATED, compresslevel=9) as packed:
        for path in paths:
            info = zipfile.ZipInfo(path.relative_to(folder).as_posix(), when)
            info.create_system, info.external_attr = 3, (0o100000 | path.stat().st_mode & 0o777) << 16
            info.compress_type = zipfile.ZIP_DEFLATED
            packed.writestr(info, path.read_bytes(), compresslevel=9)
