"""The guest: Debian's kernel and tools, unpacked from their packages into an initramfs. Nothing of it is installed."""
import glob
import os
import shutil
import subprocess

HERE = os.path.dirname(os.path.abspath(__file__))

# /bin and its like are links below /usr, as Debian has them, and these programs have a choice of names there
MERGED = ("bin", "lib", "lib64", "sbin")
LINKS = {"awk": "mawk", "vi": "vim.tiny", "python3": "python3.11"}

# what the guest needs none of, below /usr and beside it
LEFT_OUT = (
    *("../boot", "bin/git-shell", "bin/perl5*", "bin/scalar"),
    *("lib/git-core/*http*", "lib/git-core/git-daemon", "lib/git-core/git-imap-send", "lib/git-core/git-sh*"),
    *("lib/git-core/scalar", "lib/python3.11/pydoc_data", "lib/systemd", "lib/*/gconv", "share/bash-completion"),
    *("share/doc", "share/i18n", "share/info", "share/locale", "share/man", "share/vim"),
)

# what the guest loads by itself or on demand; the modules that these need come along
MODULES = ("virtio_pci", "virtio_net", "virtio_rng", "nfsv4", "nfs_layout_nfsv41_files", "nfs_layout_flexfiles")


def packages():
    """The packages' names, with the kernel's own package in place of the one that depends on it."""
    with open(f"{HERE}/packages.txt", encoding="utf-8") as it:
        kernel, *others = [word for line in it if not line.startswith("#") for word in line.split()]
    words = ["apt-cache", "depends", "--important", kernel]
    ran = subprocess.run(words, capture_output=True, text=True, check=False)
    if ran.returncode:
        raise SystemExit(f"mount: apt doesn't know {kernel}; `apt-get update` may do")
    return [ran.stdout.split("Depends:")[1].split()[0], *others]


def downloaded(folder):
    """The packages' files; one that is in the folder isn't fetched again."""
    os.makedirs(folder, exist_ok=True)
    wanted = packages()
    missing = [name for name in wanted if not glob.glob(f"{folder}/{name}_*.deb")]
    if missing:
        print(f"{len(missing)} packages of Debian are fetched into {folder}", flush=True)
        words = ["apt-get", "-qq", "-o", "APT::Sandbox::User=root", "download", *missing]
        subprocess.run(words, cwd=folder, check=True, stdout=subprocess.DEVNULL)
    return [glob.glob(f"{folder}/{name}_*.deb")[0] for name in wanted]


def unpack(files, tree):
    for name in MERGED:
        os.makedirs(f"{tree}/usr/{name}")
        os.symlink(f"usr/{name}", f"{tree}/{name}")
    for path in files:
        with subprocess.Popen(["dpkg-deb", "--fsys-tarfile", path], stdout=subprocess.PIPE) as content:
            subprocess.run(["tar", "--keep-directory-symlink", "-xC", tree], stdin=content.stdout, check=True)
    for name, program in LINKS.items():
        os.symlink(program, f"{tree}/usr/bin/{name}")


def keep_modules(tree, release):
    """Removes the kernel's modules that the guest doesn't load."""
    depmod, kept = ["chroot", tree, "depmod", release], set()
    subprocess.run(depmod, check=True)
    for name in MODULES:
        words = ["chroot", tree, "modprobe", "-S", release, "--show-depends", name]
        said = subprocess.run(words, capture_output=True, text=True, check=True).stdout
        kept |= {os.path.basename(line.split()[1]) for line in said.splitlines() if line.startswith("insmod")}
    for path in glob.glob(f"{tree}/usr/lib/modules/{release}/**/*.ko", recursive=True):
        if os.path.basename(path) not in kept:
            os.remove(path)
    subprocess.run(depmod, check=True)


def archive(tree, busybox, path):
    """The tree in the form in which the kernel takes an initramfs."""
    with open(path, "wb") as it, subprocess.Popen(["find", "."], cwd=tree, stdout=subprocess.PIPE) as names:
        words = [busybox, "cpio", "-o", "-H", "newc"]
        subprocess.run(words, cwd=tree, stdin=names.stdout, stdout=it, stderr=subprocess.DEVNULL, check=True)


def made(room, programs):
    """The kernel and the initramfs: Debian's part, made once in a room, then what stands in guest/, and programs."""
    kernel, debian, busybox = (f"{room}/{name}" for name in ("vmlinuz", "debian.cpio", "busybox"))
    if not os.path.exists(debian):
        tree = f"{room}/tree"
        shutil.rmtree(tree, ignore_errors=True)
        unpack(downloaded(f"{room}/packages"), tree)
        found = glob.glob(f"{tree}/boot/vmlinuz-*")[0]
        keep_modules(tree, found.rpartition("vmlinuz-")[2])
        shutil.copy(found, kernel)
        shutil.copy(f"{tree}/bin/busybox", busybox)
        for path in [path for pattern in LEFT_OUT for path in glob.glob(f"{tree}/usr/{pattern}")]:
            subprocess.run(["rm", "-r", path], check=True)
        archive(tree, busybox, f"{debian}.new")
        os.rename(f"{debian}.new", debian)
        shutil.rmtree(tree)
    archive(f"{HERE}/guest", busybox, f"{room}/own.cpio")
    shutil.rmtree(f"{room}/served", ignore_errors=True)
    os.makedirs(f"{room}/served/usr/bin")
    for name, path in programs.items():
        shutil.copy(path, f"{room}/served/usr/bin/{name}")
    archive(f"{room}/served", busybox, f"{room}/served.cpio")
    with open(f"{room}/initramfs", "wb") as whole:
        for part in (debian, f"{room}/own.cpio", f"{room}/served.cpio"):
            with open(part, "rb") as it:
                shutil.copyfileobj(it, whole)
    return kernel, f"{room}/initramfs"
