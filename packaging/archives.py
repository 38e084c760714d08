"""Reproducible archives of a folder: files in the order of their names, owned by root, all of one
time."""

import gzip
import hashlib
import io
import os
import subprocess
import tarfile

import release


def settle(folder):
    """Sets the modes and times of all files in the folder."""
    for path in sorted([folder, *folder.rglob("*")], reverse=True):
        if not path.is_symlink():
            path.chmod(0o755 if path.is_dir() or path.stat().st_mode & 0o100 else 0o644)
        os.utime(path, (release.epoch(),) * 2, follow_symlinks=False)


def write_tarball(folder, name, target):
    """Writes a tarball of the folder, in which the folder has this name."""
    settle(folder)
    packed = io.BytesIO()
    with tarfile.open(fileobj=packed, mode="w", format=tarfile.PAX_FORMAT) as tar:
        for path in sorted([folder, *folder.rglob("*")]):
            info = tar.gettarinfo(path, arcname=str(name / path.relative_to(folder)))
            info.uid = info.gid = 0
            info.uname = info.gname = "root"
            info.mtime = release.epoch()
            if info.isfile():
                with path.open("rb") as file:
                    tar.addfile(info, file)
            else:
                tar.addfile(info)
    target.write_bytes(gzipped(packed.getvalue()))


def gzipped(data):
    return gzip.compress(data, 9, mtime=0)


def write_deb(folder, fields, target, control=None):
    """Writes a Debian package of the folder's files, with these fields and further control files.

    It adds the control files to the folder.
    """
    files = sorted(path for path in folder.rglob("*") if path.is_file() and not path.is_symlink())
    kilobytes = sum(
        (path.stat().st_size + 1023) // 1024 if not path.is_symlink() else 1
        for path in folder.rglob("*")
    )
    sums = "".join(
        f"{hashlib.md5(path.read_bytes()).hexdigest()}  {path.relative_to(folder)}\n"
        for path in files
    )
    (folder / "DEBIAN").mkdir()
    lines = "".join(
        f"{name}: {text}\n" for name, text in {"Installed-Size": kilobytes, **fields}.items()
    )
    texts = {"control": lines, "md5sums": sums, **(control or {})}
    for name, text in texts.items():
        (folder / "DEBIAN" / name).write_text(text)
    settle(folder)
    words = [
        "dpkg-deb",
        "--root-owner-group",
        "-Zxz",
        "--threads-max=1",
        "--build",
        str(folder),
        str(target),
    ]
    subprocess.run(
        words,
        check=True,
        stdout=subprocess.DEVNULL,
        env={**os.environ, "SOURCE_DATE_EPOCH": str(release.epoch())},
    )
