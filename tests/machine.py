"""The machine code of the library for C, read with objdump and nm from Debian's binutils."""
import pathlib
import re
import shutil
import subprocess

ROOT = pathlib.Path(__file__).resolve().parent.parent
ARCHIVES = [ROOT / "crates" / crate / "out" / f"lib{crate}.a" for crate in ("c_api", "c_serve")]
OUTSIDE = {"memcpy", "memset"}  # the C library's


def output(*command):
    return subprocess.run([str(part) for part in command], check=True, capture_output=True, text=True).stdout


def build():
    """Builds the library, and installs binutils if it is missing."""
    subprocess.run([ROOT / "include/build"], check=True)
    if not shutil.which("objdump"):
        subprocess.run("apt-get update -qq && apt-get install -y -qq binutils >/dev/null", shell=True, check=True)


def functions(path):
    """Each function of an archive: its instructions: address -> (mnemonic, operands, the symbol that the linker puts in)."""
    found, name, last = {}, None, None
    for line in output("objdump", "-d", "-r", "--no-show-raw-insn", path).splitlines():
        if head := re.match(r"[0-9a-f]+ <(.+)>:$", line):
            name = head.group(1)
            found[name] = {}
        elif reloc := re.match(r"\s+[0-9a-f]+: R_X86_64_PLT32\s+(?:\.text\.)?(\S+?)(?:[-+]0x[0-9a-f]+)?$", line):
            code, operands, _ = found[name][last]
            found[name][last] = (code, operands, reloc.group(1))
        elif step := re.match(r"\s+([0-9a-f]+):\t(\S+)\s*(.*)$", line):
            last = int(step.group(1), 16)
            found[name][last] = (step.group(2), step.group(3), None)
    return found


def symbols(path):
    """The rows of nm: (address,) kind, name."""
    return [line.split() for line in output("nm", path).splitlines() if len(line.split()) >= 2]


def exported(path):
    return sorted(name for *_, kind, name in symbols(path) if kind == "T")


def outside(path):
    """What an archive needs from outside."""
    rows = symbols(path)
    return {row[-1] for row in rows if row[0] == "U"} - {row[-1] for row in rows if len(row) > 2}
