"""Gets and builds what kernel/play needs: Debian's stock kernel, the module for it, and a kernel of the same source that takes any
state for a target. No package is installed, and nothing is written outside the folder that is named."""
import os, re, shutil, subprocess

HERE = os.path.dirname(os.path.abspath(__file__))


def run(*command, folder=None):
    subprocess.run(command, cwd=folder, check=True, stdout=subprocess.DEVNULL)


def said(*command):
    return subprocess.run(command, check=True, stdout=subprocess.PIPE).stdout.decode()


def unpack(work, names):
    """Downloads packages and unpacks them into a folder of their own."""
    os.makedirs(f"{work}/packages", exist_ok=True)
    run("apt-get", "download", *names, folder=f"{work}/packages")
    for name in names:
        file = next(it for it in os.listdir(f"{work}/packages") if it.startswith(f"{name}_"))
        run("dpkg-deb", "-x", f"{work}/packages/{file}", f"{work}/root")


def build_module(work, tree, out):
    """Builds the module by the headers, or the source, of a kernel."""
    folder = f"{work}/module"
    shutil.rmtree(folder, ignore_errors=True)
    os.mkdir(folder)
    shutil.copy(f"{HERE}/guest/hp_guest.c", folder)
    with open(f"{folder}/Makefile", "w") as file:
        file.write("obj-m := hp_guest.o\n")
    run("make", "-s", "-C", tree, f"M={folder}", "modules", "KBUILD_MODPOST_WARN=1")
    shutil.copy(f"{folder}/hp_guest.ko", out)


def stock(work):
    """Debian's kernel: the newest of 6.1 that apt knows."""
    packages = said("apt-cache", "search", "--names-only", r"^linux-image-6\.1\.[0-9-]+-cloud-amd64$").splitlines()
    release = max((re.search(r"6\.1\.\d+-\d+", it)[0] for it in packages), key=lambda it: [int(n) for n in re.findall(r"\d+", it)])
    flavour = f"{release}-cloud-amd64"
    unpack(work, [f"linux-image-{flavour}", f"linux-headers-{flavour}", f"linux-headers-{release}-common", "linux-kbuild-6.1"])
    headers = f"{work}/root/usr/src/linux-headers-{flavour}"
    with open(f"{headers}/Makefile", "w") as file:
        file.write(f"include {work}/root/usr/src/linux-headers-{release}-common/Makefile\n")
    os.makedirs(f"{work}/stock", exist_ok=True)
    shutil.copy(f"{work}/root/boot/vmlinuz-{flavour}", f"{work}/stock/image")
    build_module(work, headers, f"{work}/stock/hp_guest.ko")


def own(work, jobs):
    """A small kernel of the same source, by kernel/own.config."""
    unpack(work, ["linux-source-6.1"])
    tree = f"{work}/linux-source-6.1"
    if not os.path.isdir(tree):
        run("tar", "-xf", f"{work}/root/usr/src/linux-source-6.1.tar.xz", "-C", work)
    shutil.copy(f"{HERE}/own.config", f"{tree}/.config")
    run("make", "-s", "olddefconfig", folder=tree)
    run("make", "-s", f"-j{jobs}", "bzImage", "modules_prepare", folder=tree)
    os.makedirs(f"{work}/own", exist_ok=True)
    shutil.copy(f"{tree}/arch/x86/boot/bzImage", f"{work}/own/image")
    build_module(work, tree, f"{work}/own/hp_guest.ko")
