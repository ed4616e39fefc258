"""Archives that have the same bytes whenever they are made of the same files: sorted, owned by root, and of one
time."""
import gzip
import io
import tarfile


def zipped(data, epoch, level=9):
    """Returns the bytes as gzip, with this time and no name."""
    made = io.BytesIO()
    with gzip.GzipFile(fileobj=made, mode="wb", compresslevel=level, filename="", mtime=epoch) as stream:
        stream.write(data)
    return made.getvalue()


def folders_of(names):
    """Returns the folders of these files, each before the files in it."""
    found = set()
    for name in names:
        parts = name.split("/")[:-1]
        found |= {"/".join(parts[:n]) for n in range(1, len(parts) + 1)}
    return sorted(found)


def entry(name, mode, epoch, kind=tarfile.REGTYPE):
    info = tarfile.TarInfo(name)
    info.mode, info.mtime, info.type = mode, epoch, kind
    info.uname = info.gname = "root"
    return info


def tarred(files, top, epoch):
    """The files below one folder, as a zipped tar."""
    made = io.BytesIO()
    with tarfile.open(fileobj=made, mode="w", format=tarfile.GNU_FORMAT) as tar:
        for folder in ["", *folders_of(files)]:
            tar.addfile(entry(f"{top}/{folder}".rstrip("/"), 0o755, epoch, tarfile.DIRTYPE))
        for name, file in sorted(files.items()):
            info = entry(f"{top}/{name}", file.mode, epoch)
            if file.target:
                info.mode, info.type, info.linkname = 0o777, tarfile.SYMTYPE, file.target
            else:
                info.size = len(file.content)
            tar.addfile(info, io.BytesIO(file.content))
    return zipped(made.getvalue(), epoch, level=6)
