"""Makes a package for Debian of bin/smi and what `make install` puts beside it.

usage: deb.py FOLDER

The package is FOLDER/lunskaf_VERSION_amd64.deb. Its version is the newest of CHANGELOG.md, its day that of the last
commit, or SOURCE_DATE_EPOCH where that is set.
"""

import gzip
import hashlib
import os
import re
import shutil
import subprocess
import sys
import tempfile
import time

ROOT = os.path.join(os.path.dirname(os.path.abspath(__file__)), "..")
NAME, MAINTAINER = "lunskaf", "Lunskaf maintainers <maintainers@users.noreply.lunskaf.example>"
SCRIPTS = ("postinst", "prerm", "postrm")
DOC = os.path.join("usr", "share", "doc", NAME)
# Where Debian has the units and the completion of zsh.
ZSH = "/usr/share/zsh/vendor-completions"


def read(*path):
    with open(os.path.join(ROOT, *path), encoding="utf-8") as file:
        return file.read()


def write(path, text, mode=0o644):
    os.makedirs(os.path.dirname(path), exist_ok=True)
    with open(path, "w", encoding="utf-8") as file:
        file.write(text)
    os.chmod(path, mode)


def squeezed(path):
    """Puts a file in its compressed form in its place, which has no time in it."""
    with open(path, "rb") as file:
        data = file.read()
    with open(path + ".gz", "wb") as file:
        file.write(gzip.compress(data, 9, mtime=0))
    os.remove(path)


def version():
    return re.search(r"^## (\d[\d.]*)$", read("CHANGELOG.md"), flags=re.M)[1]


def moment():
    """When the package was made, in seconds: the same for the same commit, or for the same CHANGELOG.md outside git."""
    given = os.environ.get("SOURCE_DATE_EPOCH")
    if not given and shutil.which("git"):
        words = ["git", "log", "-1", "--format=%ct"]
        given = subprocess.run(words, cwd=ROOT, stdout=subprocess.PIPE, stderr=subprocess.DEVNULL, check=False).stdout
    return int(given or os.path.getmtime(os.path.join(ROOT, "CHANGELOG.md")))


def libc(program):
    """The oldest C library with all that the program asks of it."""
    with open(program, "rb") as file:
        found = re.findall(rb"\0GLIBC_([\d.]+)(?=\0)", file.read())
    return max(found, key=lambda it: [int(part) for part in it.split(b".")]).decode()


def copying():
    """LICENSE in the form that Debian has for it."""
    _, owner, text = read("LICENSE").split("\n\n", maxsplit=2)
    told = "\n".join(" " + (line or ".") for line in text.rstrip().split("\n"))
    head = read("package", "copyright").replace("@COPYRIGHT@", owner.removeprefix("Copyright (c) "))
    return head.replace("@TEXT@", told)


def stage(folder):
    """All files of the package, as `make install` and Debian have them."""
    words = ["make", "--no-print-directory", "-s", "-o", "bin/smi", "install", "PREFIX=/usr", "DESTDIR=" + folder,
             "ZSH=" + ZSH]
    subprocess.run(words, cwd=ROOT, check=True)
    if shutil.which("strip"):
        subprocess.run(["strip", "--strip-unneeded", os.path.join(folder, "usr", "bin", "smi")], check=True)
    os.remove(os.path.join(folder, DOC, "LICENSE"))
    squeezed(os.path.join(folder, "usr", "share", "man", "man1", "smi.1"))
    os.makedirs(os.path.join(folder, "etc", "smi"))
    write(os.path.join(folder, DOC, "copyright"), copying())
    day = time.strftime("%a, %d %b %Y %H:%M:%S +0000", time.gmtime(moment()))
    changes = "%s (%s) unstable; urgency=medium\n\n  * See CHANGELOG.md.\n\n -- %s  %s\n"
    write(os.path.join(folder, DOC, "changelog"), changes % (NAME, version(), MAINTAINER, day))
    squeezed(os.path.join(folder, DOC, "changelog"))


def files_of(folder):
    """The paths of all files, from the root of the package."""
    return sorted(os.path.relpath(os.path.join(at, name), folder)
                  for at, _, names in os.walk(folder) for name in names)


def control(folder):
    """What the package says of itself."""
    kept = sum(os.path.getsize(os.path.join(folder, path)) for path in files_of(folder))
    asks = "libc6 (>= %s), systemd | systemd-standalone-sysusers" % libc(os.path.join(folder, "usr", "bin", "smi"))
    lines = ["Package: " + NAME, "Version: " + version(), "Architecture: amd64", "Maintainer: " + MAINTAINER,
             "Installed-Size: %d" % -(-kept // 1024), "Depends: " + asks, "Recommends: python3", "Section: science",
             "Priority: optional", read("package", "description")]
    return "\n".join(lines)


def sums(folder):
    """The sum of each file, as dpkg keeps them."""
    found = []
    for path in files_of(folder):
        with open(os.path.join(folder, path), "rb") as file:
            found.append("%s  %s\n" % (hashlib.md5(file.read()).hexdigest(), path))
    return "".join(found)


def made(into):
    """Makes the package, and answers its path."""
    with tempfile.TemporaryDirectory() as top:
        folder = os.path.join(top, NAME)
        os.makedirs(folder, mode=0o755)
        stage(folder)
        texts = [("control", control(folder), 0o644), ("md5sums", sums(folder), 0o644)]
        texts += [(name, read("package", name), 0o755) for name in SCRIPTS]
        for name, text, mode in texts:
            write(os.path.join(folder, "DEBIAN", name), text, mode)
        os.makedirs(into, exist_ok=True)
        path = os.path.join(into, "%s_%s_amd64.deb" % (NAME, version()))
        told = dict(os.environ, SOURCE_DATE_EPOCH=str(moment()))
        subprocess.run(["dpkg-deb", "--root-owner-group", "-Zxz", "--build", folder, path], check=True, env=told,
                       stdout=subprocess.DEVNULL)
    return path


def main():
    if len(sys.argv) != 2:
        sys.exit(__doc__.split("\n\n")[1])
    print(made(os.path.abspath(sys.argv[1])))


if __name__ == "__main__":
    main()
