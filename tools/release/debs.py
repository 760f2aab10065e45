"""The packages for Debian, by dpkg-deb."""
import hashlib
import os
import subprocess
import time

from build.c_library import SONAME
from build.kit import TOP
from release import elf, unix
from release.files import File, file, read, text, write_folder, zipped

LIBDIR = "usr/lib/x86_64-linux-gnu"
MODULE = "ngx_http_jwt_module.so"
CONFIGURATION = "mod-http-jwtproved.conf"
SCRIPTS = "/usr/share/debhelper/autoscripts"
ABOUT = "JSON Web Tokens by a proved library"
# The name of a shared library's package ends with the number of its soname.
LIBRARY = f"libjwtproved{SONAME}"
# For each package: its section, its part of the first line of the description, and the lines that follow.
PACKAGES = {
    LIBRARY: ("libs", "shared library", "Programs verify tokens by it."),
    "libjwtproved-dev": ("libdevel", "development files", "The header, the static library and the manual page of the library."),
    "jwtproved": ("utils", "command", "The command jwt verifies, explains, shows and signs tokens."),
    "libnginx-mod-http-jwtproved": ("httpd", "module for nginx", "The module lets a request pass if it has a valid token."),
}
TRIGGER = "activate-noawait ldconfig\n"
# The packages of Debian that have a file of the same path: jwt has /usr/bin/jwt too.
CONFLICTS = {"jwtproved": "jwt"}


def control(it, name, depends, size):
    section, what, more = PACKAGES[name]
    lines = {
        "Package": name,
        "Source": "jwtproved",
        "Version": it.version,
        "Architecture": "amd64",
        "Maintainer": it.maker,
        "Installed-Size": str(size // 1024 + 1),
        "Depends": depends,
        **({"Conflicts": CONFLICTS[name]} if name in CONFLICTS else {}),
        "Section": section,
        "Priority": "optional",
        "Description": f"{ABOUT} ({what})\n {more}",
    }
    return "".join(f"{key}: {value}\n" for key, value in lines.items())


def documents(it, name, proof):
    """Returns what Debian asks of each package, and what was proved."""
    day = time.strftime("%a, %d %b %Y %H:%M:%S +0000", time.gmtime(it.stamp))
    log = f"jwtproved ({it.version}) unstable; urgency=medium\n\n  * Version {it.version}, of commit {it.commit}.\n\n -- {it.maker}  {day}\n"
    folder = f"usr/share/doc/{name}"
    return {
        f"{folder}/copyright": file(f"{TOP}/LICENSE"),
        f"{folder}/changelog.gz": File(zipped(log.encode())),
        f"{folder}/PROOF.txt.gz": File(zipped(proof.encode())),
    }


def library(it):
    found = {path: made._replace(mode=0o644) for path, made in unix.shared(it, LIBDIR).items()}
    extra = {"shlibs": f"libjwtproved {SONAME} {LIBRARY} (>= {it.version})\n", "triggers": TRIGGER}
    return found, f"libc6 (>= {elf.glibc(it.shared)})", extra


def development(it):
    pc = unix.pkg_config(it, "/usr", "/usr/include", f"/{LIBDIR}")
    found = unix.development(it, "usr/include", LIBDIR, pc) | unix.manual("usr/share", "packages/c/jwtproved.3", True)
    return found, f"{LIBRARY} (= {it.version})", {}


def command(it):
    found = unix.programs(it, "usr/bin", ("jwt",)) | unix.manual("usr/share", "packages/cli/jwt.1", True)
    # Debian's zsh looks for those of packages there
    found |= unix.completions("usr/share", "vendor-completions")
    return found, f"libc6 (>= {elf.glibc(it.program('jwt'))})", {}


def nginx_abi():
    """Returns the name by which the installed nginx says which modules it loads, such as nginx-abi-1.22.1-7."""
    ran = subprocess.run(["dpkg-query", "-W", "-f", "${Provides}", "nginx"], stdout=subprocess.PIPE, text=True, check=True)
    return next(name for name in ran.stdout.replace(",", " ").split() if name.startswith("nginx-abi-"))


def built_module(it):
    """Builds the nginx module over the library of this release. Returns its path."""
    write_folder(f"{it.scratch}/over", unix.tarball(it, ""), it.stamp)
    build = f"{it.scratch}/nginx"
    environment = {**os.environ, "PKG_CONFIG_PATH": f"{it.scratch}/over/lib/pkgconfig", "SOURCE_DATE_EPOCH": str(it.stamp)}
    subprocess.run(["make", "-s", "-C", f"{TOP}/packages/nginx", f"BUILD={build}"], env=environment, stdin=subprocess.DEVNULL, check=True)
    subprocess.run(["strip", "--strip-unneeded", f"{build}/objs/{MODULE}"], check=True)
    return f"{build}/objs/{MODULE}"


def nginx(it):
    path = built_module(it)
    found = {
        f"usr/lib/nginx/modules/{MODULE}": file(path),
        f"usr/share/nginx/modules-available/{CONFIGURATION}": text(f"load_module modules/{MODULE};\n"),
    }
    # as dh_nginx writes them for Debian's own modules
    extra = {name: f"#!/bin/sh\nset -e\n{read(f'{SCRIPTS}/{name}-nginx').decode()}" for name in ("postinst", "prerm", "postrm")}
    extra = {name: script.replace("#NAMES#", f"{CONFIGURATION}:50-{CONFIGURATION}") for name, script in extra.items()}
    return found, f"libc6 (>= {elf.glibc(path)}), {LIBRARY} (>= {it.version}), {nginx_abi()}", extra


MAKERS = {LIBRARY: library, "libjwtproved-dev": development, "jwtproved": command, "libnginx-mod-http-jwtproved": nginx}


def write(it, name, proof, folder):
    """Writes a package to the folder."""
    found, depends, extra = MAKERS[name](it)
    found |= documents(it, name, proof)
    size = sum(len(made.content) for made in found.values())
    sums = "".join(f"{hashlib.md5(made.content).hexdigest()}  {path}\n" for path, made in sorted(found.items()) if not made.link)
    for part, content in {"control": control(it, name, depends, size), "md5sums": sums, **extra}.items():
        found[f"DEBIAN/{part}"] = text(content, 0o755 if content.startswith("#!") else 0o644)
    write_folder(f"{it.scratch}/{name}", found, it.stamp)
    words = ["dpkg-deb", "--root-owner-group", "-Zxz", "--threads-max=1", "--build"]
    words += [f"{it.scratch}/{name}", f"{folder}/{name}_{it.version}_amd64.deb"]
    subprocess.run(words, env={**os.environ, "SOURCE_DATE_EPOCH": str(it.stamp)}, stdout=subprocess.DEVNULL, check=True)
