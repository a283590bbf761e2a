"""Where the package is installed: an empty folder, or a fresh root that has what this machine has."""

import glob
import os
import shlex
import shutil
import subprocess

from trying.files import TOP

# The folders of the machine that a fresh root has, each under a layer of its own.
LAYERS = ["bin", "sbin", "lib", "lib32", "lib64", "libx32", "usr", "etc", "var"]


def ran(words, folder, **more):
    """Runs a command, and returns its status, or None after 20 minutes, and what it wrote."""
    more |= {"stdin": subprocess.DEVNULL, "stdout": subprocess.PIPE, "stderr": subprocess.STDOUT}
    try:
        said = subprocess.run(words, cwd=folder, text=True, errors="replace", timeout=1200, check=False, **more)
    except subprocess.TimeoutExpired:
        return None, "it did not end"
    return said.returncode, said.stdout


def mount(*words):
    subprocess.run(["mount", *words], check=True, capture_output=True)


def rust_of_machine():
    """Returns the folder of this machine's Rust, or None."""
    if shutil.which("rustc") is None:
        return None
    return subprocess.run(["rustc", "--print", "sysroot"], capture_output=True, text=True, check=True).stdout.strip()


class Folder:
    """An empty folder, into which the package is installed."""

    start = []

    def __init__(self, folder):
        self.root = os.path.join(folder, "root")
        self.work = self.inside = os.path.join(folder, "work")
        self.usr = os.path.join(self.root, "usr")
        rust = rust_of_machine()
        self.rust = f"{rust}/bin" if rust else ""
        self.more = {"PKG_CONFIG_PATH": f"{self.usr}/lib/x86_64-linux-gnu/pkgconfig"}
        os.mkdir(self.root)
        os.mkdir(self.work)

    def ran(self, command):
        """Runs a command in the folder for work, without anything of this environment. {words} are paths of the
        package."""
        environment = {
            "HOME": self.inside,
            "LANG": "C.UTF-8",
            "PATH": f"{self.usr}/bin:/usr/bin:/bin:/usr/sbin:/sbin:{self.rust}",
            "CARGO_NET_OFFLINE": "true",
            **self.more,
        }
        words = ["env", "-i", *(f"{name}={value}" for name, value in environment.items())]
        words += ["sh", "-c", f"cd {self.inside} && {self.written(command)}"]
        return ran([*self.start, *words], self.work)

    def has(self, program):
        return self.ran(f"command -v {program}")[0] == 0

    def written(self, command):
        """Returns a command with the paths of the package filled in."""
        libraries = f"{self.usr}/lib/x86_64-linux-gnu"
        if shutil.which("pkg-config"):
            flags = "$(pkg-config --cflags --libs evc)"
        else:
            flags = f"-I{self.usr}/include -L{libraries} -levc -pthread"
        places = {"recorder": "recorder", "library": "library", "runners": "examples/runners", "real": "examples/real"}
        for name, place in places.items():
            command = command.replace("{" + name + "}", f"{self.usr}/share/evc/{place}")
        command = command.replace("{rust_flags}", f"-L {libraries} -l static=evc").replace("{flags}", flags)
        return command.replace("{usr}", self.usr)

    def install(self, package, count):
        """Installs the package. Returns whether dpkg did."""
        deb = glob.glob(os.path.join(package, "*.deb"))
        if deb and shutil.which("dpkg"):
            os.makedirs(os.path.join(self.root, "var", "lib", "dpkg", "info"))
            os.makedirs(os.path.join(self.root, "var", "lib", "dpkg", "updates"))
            for name in ("status", "available"):
                open(os.path.join(self.root, "var", "lib", "dpkg", name), "w").close()
            status, said = self.dpkg("-i", deb[0])
            if status == 0:
                return True
            print(f"installed from the .tar.gz, since dpkg said: {said}")
        (archive,) = glob.glob(os.path.join(package, "*.tar.gz"))
        status, said = ran(["tar", "-xzf", archive, "--strip-components=1"], self.root)
        count.expect(status == 0, said)
        return False

    def dpkg(self, *words):
        return ran(["dpkg", f"--root={self.root}", "--force-depends", "--force-not-root", *words], self.root)

    def left(self):
        """Returns what is left of the package, besides dpkg's own files."""
        found = []
        for folder, _, names in os.walk(self.root):
            inside = os.path.relpath(folder, self.root)
            if not inside.startswith("var/lib/dpkg"):
                found += [os.path.join(inside, it) for it in names]
                if inside.startswith("usr"):
                    found.append(inside)
        return found


class FreshRoot(Folder):
    """A root that has what this machine has, but not the repository. What is written into it goes into layers."""

    # (the process has its own mount namespace: the mounts are gone when it ends, and nothing is removed before that)
    def __init__(self, folder):
        super().__init__(folder)
        self.usr, self.inside, self.layers = "/usr", "/work", os.path.join(folder, "layers")
        self.start, self.more = ["chroot", self.root], {}
        for name in LAYERS:
            self.add_layer(name)
        for name in ("dev", "proc", "tmp", "work"):
            os.mkdir(os.path.join(self.root, name))
        self.work = os.path.join(self.root, "work")
        for name in ("null", "zero", "random", "urandom"):
            open(f"{self.root}/dev/{name}", "w").close()
            mount("--bind", f"/dev/{name}", f"{self.root}/dev/{name}")
        mount("--rbind", "/proc", f"{self.root}/proc")
        self.add_rust()
        if os.path.exists(f"{self.root}{TOP}"):
            mount("-t", "tmpfs", "tmpfs", f"{self.root}{TOP}")

    def add_layer(self, name):
        place = os.path.join(self.root, name)
        if os.path.islink(f"/{name}"):
            os.symlink(os.readlink(f"/{name}"), place)
        elif os.path.isdir(f"/{name}"):
            upper, work = os.path.join(self.layers, name), os.path.join(self.layers, f"work-{name}")
            for it in (place, upper, work):
                os.makedirs(it)
            mount("-t", "overlay", "overlay", "-o", f"lowerdir=/{name},upperdir={upper},workdir={work}", place)

    def add_rust(self):
        rust = rust_of_machine()
        if rust and not rust.startswith("/usr"):
            os.makedirs(f"{self.root}/opt/rust")
            mount("--bind", rust, f"{self.root}/opt/rust")
            self.rust = "/opt/rust/bin"

    def install(self, package, count):
        deb = glob.glob(os.path.join(package, "*.deb"))
        if not deb or not self.has("dpkg"):
            print("this is tried in a folder, as this machine has no dpkg")
            return False
        shutil.copy(deb[0], self.work)
        count.expect(self.ran(f"test -e {shlex.quote(str(TOP))}/bin/package")[0] != 0, "the root has the repository")
        # (an evc that is installed already goes first: what is compared at the end are the layers after that)
        self.ran("dpkg --purge evc")
        self.before = set(self.layered())
        force = "" if self.ran("dpkg -s libc6")[0] == 0 else "--force-depends"
        status, said = self.ran(f"dpkg {force} --no-triggers -i {os.path.basename(deb[0])}")
        return count.expect(status == 0, f"dpkg -i: {said}")

    def dpkg(self, *words):
        return self.ran(f"dpkg --no-triggers {shlex.join(words)}")

    def layered(self):
        """Yields what the layers of the root have, except folders that the machine has too."""
        for layer in set(LAYERS) - {"var"}:
            upper = os.path.join(self.layers, layer)
            for folder, folders, names in os.walk(upper):
                inside = os.path.normpath(os.path.join("/", layer, os.path.relpath(folder, upper)))
                yield from (os.path.join(inside, it) for it in names)
                yield from (found for it in folders if not os.path.isdir(found := os.path.join(inside, it)))

    def left(self):
        listed = glob.glob(f"{self.root}/var/lib/dpkg/info/evc.*")
        return [*listed, *(it for it in self.layered() if it not in self.before)]


def can_be_fresh(folder):
    """Returns whether a fresh root can be made here: by root, in a mount namespace, on a machine with dpkg."""
    if os.geteuid() != 0 or not all(map(shutil.which, ("unshare", "chroot", "mount", "dpkg"))):
        return False
    places = [os.path.join(folder, it) for it in ("try", "upper", "below")]
    for it in places:
        os.mkdir(it)
    layer = f"mount -t overlay overlay -o lowerdir=/usr,upperdir={places[1]},workdir={places[2]} {places[0]}"
    return ran(["unshare", "--mount", "sh", "-c", layer], folder)[0] == 0
