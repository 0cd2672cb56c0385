"""Scene of .ci/people: what ./install installs, made from the programs that are built."""
import importlib.machinery
import importlib.util
import os
import shutil
import subprocess
import sys

from people_lab import built, see

sys.dont_write_bytecode = True
TOP = os.path.dirname(os.path.dirname(os.path.abspath(__file__)))
# a program that reads a file of this kind, and says where it is wrong; it is asked where it is there
READERS = {
    "share/man": ("mandoc", "-T", "lint"),
    "share/bash-completion": ("bash", "-n"),
    "share/zsh": ("zsh", "-n"),
    "share/fish": ("fish", "-n"),
}


def installer():
    """./install, as a module."""
    loader = importlib.machinery.SourceFileLoader("installer", f"{TOP}/install")
    made = importlib.util.module_from_spec(importlib.util.spec_from_loader("installer", loader))
    loader.exec_module(made)
    return made


def files_below(root):
    return sorted(os.path.relpath(f"{folder}/{name}", root) for folder, _, names in os.walk(root) for name in names)


def wanted_files(programs):
    """What has to be there, by the programs and their sections."""
    made = ["lib/systemd/system/nfsd.service", "share/doc/zoclesavory/BUILD", "share/doc/zoclesavory/LICENSE"]
    for name, (section, _) in programs.items():
        made += [f"bin/{name}", f"share/man/man{section}/{name}.{section}", f"share/bash-completion/completions/{name}"]
        made += [f"share/zsh/site-functions/_{name}", f"share/fish/vendor_completions.d/{name}.fish"]
    return sorted(made)


def text(path):
    with open(path, encoding="utf-8") as it:
        return it.read()


def see_read(root):
    """Other programs read the pages and the completions without a word."""
    for folder, reader in READERS.items():
        if shutil.which(reader[0]):
            for path in files_below(f"{root}/{folder}"):
                ran = subprocess.run([*reader, f"{root}/{folder}/{path}"], capture_output=True, text=True, check=False)
                see(f"{' '.join(reader)} {path}", (ran.stdout, ran.stderr, ran.returncode), ("", "", 0))


def see_options(root, name, section, options):
    """Each option of a program stands in its page and in each completion."""
    page = text(f"{root}/share/man/man{section}/{name}.{section}").replace("\\-", "-")
    bash = text(f"{root}/share/bash-completion/completions/{name}")
    zsh = text(f"{root}/share/zsh/site-functions/_{name}")
    fish = text(f"{root}/share/fish/vendor_completions.d/{name}.fish")
    for option in options:
        shown = (f"\\fB{option}\\fR" in page, f" {option} " in bash.replace("'", " "), f"'{option}[" in zsh, f" -l {option[2:]} " in fish)
        see(f"{option} of {name}", shown, (True,) * 4)


def installed(tree, room):
    """Programs, pages, completions and the unit are put there, and other programs read them."""
    install = installer()
    root = f"{room}/root/opt/files"
    install.put_all("/opt/files", root, {name: built(tree, name) for name in install.PROGRAMS}, True)
    see("the files", files_below(root), wanted_files(install.PROGRAMS))
    see_read(root)
    for name, (section, _) in install.PROGRAMS.items():
        see(f"the mode of {name}", oct(os.stat(f"{root}/bin/{name}").st_mode & 0o777), "0o755")
        see_options(root, name, section, [it.long for it in install.help_of(name, f"{root}/bin/{name}").options])
    see("the unit", "ExecStart=/opt/files/bin/nfsd --home " in text(f"{root}/lib/systemd/system/nfsd.service"), True)
    see("what is said of the build", "\nproved: " in text(f"{root}/share/doc/zoclesavory/BUILD"), True)
