"""A table of docs/GUIDE.md that a C program prints, tests/tables/NAME.c, linked with the library for C."""
import pathlib
import re
import shutil
import subprocess

from written import settle

ROOT = pathlib.Path(__file__).resolve().parent.parent
STRICT = ["-std=c99", "-O2", "-Wall", "-Wextra", "-Wpedantic", "-Wconversion", "-Wshadow", "-Werror"]


def table(name):
    """Prints it, numbers from 1,000 on with commas; --write puts it into the guide, --check compares and ends with a line `N passed, M failed`."""
    if not shutil.which("cc"):
        subprocess.run("apt-get update -qq && apt-get install -y -qq gcc libc6-dev >/dev/null", shell=True, check=True)
    subprocess.run([ROOT / "include/build"], check=True)
    program = ROOT / "target/c" / name
    program.parent.mkdir(parents=True, exist_ok=True)
    library = ROOT / "crates/c_api/out/libc_api.a"
    subprocess.run(["cc", *STRICT, f"-I{ROOT}/include", ROOT / f"tests/tables/{name}.c", library, "-o", program], check=True)
    printed = subprocess.run([program], check=True, capture_output=True, text=True).stdout
    settle(ROOT / "docs/GUIDE.md", f"tests/{name}", re.sub(r"\d{4,}", lambda n: f"{int(n[0]):,}", printed))
