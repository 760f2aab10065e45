"""The files of the library for C and of the command, as folders of Unix have them."""
from build.c_library import SONAME
from build.kit import TOP
from release.files import File, file, read, text, zipped

PC = ("prefix", "includedir", "libdir", "version")


def shared(it, libdir):
    """Returns the shared library, and the name by which programs ask for it."""
    name = f"libjwtproved.so.{it.version}"
    return {f"{libdir}/{name}": file(it.shared, 0o755), f"{libdir}/libjwtproved.so.{SONAME}": File(link=name)}


def pkg_config(it, prefix, includedir, libdir):
    """Returns what make -C packages/c install writes for pkg-config."""
    made = read(f"{TOP}/packages/c/jwtproved.pc.in").decode()
    for name, value in zip(PC, (prefix, includedir, libdir, it.version)):
        made = made.replace(f"@{name}@", value)
    return text(made)


def development(it, includedir, libdir, pc):
    """Returns what a program is compiled with."""
    return {
        f"{includedir}/jwtproved.h": file(f"{TOP}/packages/c/include/jwtproved.h"),
        f"{libdir}/libjwtproved.a": file(it.static),
        f"{libdir}/libjwtproved.so": File(link=f"libjwtproved.so.{SONAME}"),
        f"{libdir}/pkgconfig/jwtproved.pc": pc,
    }


def programs(it, bindir, names):
    return {f"{bindir}/{name}": file(it.program(name), 0o755) for name in names}


def completions(datadir, of_zsh):
    """Returns the completions for each shell; those for zsh are in the folder `of_zsh`."""
    places = {"bash": "bash-completion/completions/jwt", "zsh": f"zsh/{of_zsh}/_jwt", "fish": "fish/vendor_completions.d/jwt.fish"}
    return {f"{datadir}/{place}": file(f"{TOP}/packages/cli/completions/jwt.{shell}") for shell, place in places.items()}


def manual(datadir, page, is_zipped):
    """Returns a page of the manual, whose section its name ends with."""
    place, content = f"{datadir}/man/man{page[-1]}/{page.rpartition('/')[2]}", read(f"{TOP}/{page}")
    return {f"{place}.gz": File(zipped(content))} if is_zipped else {place: File(content)}


def tarball(it, proof):
    """Returns the files of the archive for everyone, which can also be used where it is unpacked."""
    pc = pkg_config(it, "${pcfiledir}/../..", "${prefix}/include", "${prefix}/lib")
    made = {**shared(it, "lib"), **development(it, "include", "lib", pc), **programs(it, "bin", ("jwt", "jwt_tool"))}
    made |= completions("share", "site-functions") | manual("share", "packages/cli/jwt.1", False) | manual("share", "packages/c/jwtproved.3", False)
    made |= {"LICENSE": file(f"{TOP}/LICENSE"), "PROOF.txt": text(proof), "install.sh": file(f"{TOP}/tools/release/install.sh", 0o755)}
    return made
