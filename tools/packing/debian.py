"""The package for Debian, which dpkg-deb makes of a folder."""
import email.utils
import hashlib
import os
import pathlib
import re
import subprocess

from packing import archives, made, tree

MAINTAINER = "Durkenzo maintainers <maintainers@users.noreply.durkenzo.example>"
CONTROL = """Package: durkenzo
Version: {version}
Section: database
Priority: optional
Architecture: {architecture}
Maintainer: {maintainer}
Installed-Size: {size}
Depends: {depends}
Suggests: etcd-server, redis-tools
Description: shard manager with a proved core{mark}
 Each range of keys, a shard, is written by one server at a time: also while it
 moves, while a server restarts, and where a client holds an old map. The core
 is proved, function by function; what stands round it is tested.
 .
 durkenzo-server serves Redis clients from several servers, in one process, or
 in processes of their own over etcd; no unit is enabled. sm_cli runs scripts
 on the same proved parts.
"""
MARK = " (built without proof)"
CHANGES = """durkenzo ({version}) unstable; urgency=medium

  * What changed stands in CHANGELOG.md beside this file.

 -- {maintainer}  {date}
"""
COPYRIGHT = """Format: https://www.debian.org/doc/packaging-manuals/copyright-format/1.0/
Upstream-Name: durkenzo
Comment: Of other people's crates in the programs, NOTICES has the licences.

Files: *
Copyright: {holder}
License: Expat

License: Expat
{text}
"""
# A server ends before its program is removed; a unit that came or went is read again.
STOP = """#!/bin/sh
set -e
if [ "$1" = remove ] && [ -d /run/systemd/system ]; then
    deb-systemd-invoke stop durkenzo.service durkenzo-cluster.service durkenzo-etcd.service >/dev/null || true
fi
"""
RELOAD = """#!/bin/sh
set -e
if [ -d /run/systemd/system ]; then
    systemctl --system daemon-reload >/dev/null || true
fi
"""
SCRIPTS = {"prerm": STOP, "postinst": RELOAD, "postrm": RELOAD}
UNITS = ("server/durkenzo.service.in", "deploy/durkenzo-cluster.service.in", "deploy/durkenzo-etcd.service")
# The files that an administrator writes, which an upgrade leaves alone; addresses and passwords are only for root.
SETTINGS = {"deploy/etcd.env": 0o600, "deploy/server.env": 0o600, "deploy/tls.conf.in": 0o644}
OVERRIDES = "usr/share/lintian/overrides/durkenzo"


def copyright_of():
    """The licence in Debian's form."""
    paragraphs = (made.TOP / "LICENSE").read_text(encoding="utf-8").strip().split("\n\n")
    holder = re.sub(r"^Copyright \(c\) ", "", paragraphs[1])
    text = "\n .\n".join("\n".join(f" {line}" for line in it.splitlines()) for it in paragraphs[2:])
    return COPYRIGHT.format(holder=holder, text=text)


def owner_of(path):
    """Returns the package that has this library, which may be below /usr there."""
    for name in (path, f"/usr{path}"):
        ran = subprocess.run(["dpkg-query", "-S", name], capture_output=True, text=True)
        if not ran.returncode:
            return ran.stdout.partition(":")[0]
    raise made.NotMade(f"no package has {path}, which the programs load")


def depends(room, given):
    """The packages of the libraries that the programs load, and of libc the oldest version that has all that they
    call."""
    packages, newest = set(), (2, 17)
    for program in (given.program, given.server):
        told, loaded = room.run("objdump", "-p", program), room.run("ldd", program)
        newest = max([newest, *((int(a), int(b)) for a, b in re.findall(r"GLIBC_(\d+)\.(\d+)", told))])
        path_of = dict(re.findall(r"(\S+) => (/\S+)", loaded))
        packages |= {owner_of(path_of[it]) for it in re.findall(r"NEEDED +(\S+)", told) if it in path_of}
    least = f" (>= {newest[0]}.{newest[1]})"
    return ", ".join(f"{it}{least if it == 'libc6' else ''}" for it in sorted(packages))


def put_into(folder, modes):
    """These files of the repository in the package's folder, each with its mode."""
    names = {it: pathlib.Path(it).name.removesuffix(".in") for it in modes}
    return {f"{folder}/{names[it]}": tree.filled(it, "/usr", mode) for it, mode in modes.items()}


def units():
    """Returns the units of systemd, and the settings of a cluster's units. lintian is told that some are only for
    root."""
    found = put_into("lib/systemd/system", dict.fromkeys(UNITS, 0o644))
    settings = put_into("etc/durkenzo", SETTINGS)
    lines = [
        f"durkenzo: non-standard-file-perm {file.mode:04o} != 0644 [{name}]\n"
        for name, file in settings.items()
        if file.mode != 0o644
    ]
    return found | settings | {OVERRIDES: tree.File("".join(lines).encode())}


def files_of(room, given):
    """All files of the package, below its root."""
    found = {f"usr/{name}": file for name, file in tree.of_debian(room, given).items()}
    for name in [it for it in found if it.startswith("usr/share/man/")]:
        found[f"{name}.gz"] = tree.File(archives.zipped(found.pop(name).content, room.epoch))
    date = email.utils.formatdate(room.epoch)
    changes = CHANGES.format(version=given.version, maintainer=MAINTAINER, date=date)
    found[f"usr/{tree.DOCS}/changelog.gz"] = tree.File(archives.zipped(changes.encode(), 0))
    found[f"usr/{tree.DOCS}/copyright"] = tree.File(copyright_of().encode())
    return found | units()


def control(room, given, files):
    """The control files."""
    size = sum(-(-len(it.content) // 1024) for it in files.values())
    text = CONTROL.format(
        version=given.version,
        architecture=room.run("dpkg", "--print-architecture").strip(),
        maintainer=MAINTAINER,
        size=size,
        depends=depends(room, given),
        mark=MARK if given.version.endswith(made.UNPROVED) else "",
    )
    settings = [it for it in sorted(files) if it.startswith("etc/")]
    sums = "".join(
        f"{hashlib.md5(it.content).hexdigest()}  {name}\n" for name, it in sorted(files.items()) if name not in settings
    )
    yield "control", tree.File(text.encode())
    yield "conffiles", tree.File("".join(f"/{it}\n" for it in settings).encode())
    yield "md5sums", tree.File(sums.encode())
    for name, script in SCRIPTS.items():
        yield name, tree.File(script.encode(), 0o755)


def package(room, given, into):
    """Writes the package into the folder; returns its path."""
    root = room.folder / "debian"
    files = files_of(room, given)
    every = {**files, **{f"DEBIAN/{name}": it for name, it in control(room, given, files)}}
    for name, file in every.items():
        path = root / name
        path.parent.mkdir(parents=True, exist_ok=True)
        path.write_bytes(file.content)
        path.chmod(file.mode)
    for folder in [root, *root.rglob("*")]:
        folder.chmod(0o755) if folder.is_dir() else None
        os.utime(folder, (room.epoch, room.epoch))
    architecture = re.search(rb"Architecture: (\S+)", every["DEBIAN/control"].content)[1].decode()
    made_at = into / f"durkenzo_{given.version}_{architecture}.deb"
    env = {**os.environ, "SOURCE_DATE_EPOCH": str(room.epoch)}
    room.run("dpkg-deb", "--root-owner-group", "-Zxz", "-z2", "--threads-max=1", "--build", root, made_at, env=env)
    return made_at
