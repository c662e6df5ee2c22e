"""The programs that the tests run. A test builds those that it needs before it runs them, so that none is missing, old or in the making."""
import subprocess
from pathlib import Path

ROOT = Path(__file__).resolve().parent.parent
LAUNCHER = str(ROOT / "bench")
ORACLE = str(ROOT / "tests/oracle/target/release/oracle")
# no network, and no lock file rewritten
CARGO = ["--locked", "--offline", "--quiet"]


def made(words):
    """Runs what makes a program, and ends the tests where it fails."""
    if subprocess.run(words, stdin=subprocess.DEVNULL).returncode != 0:
        raise SystemExit(f"failed: {' '.join(words)}")


def build(name):
    """Proves and builds a program of the product, which the launcher runs."""
    made([LAUNCHER, "--build", name])


def build_oracle():
    """Builds the independent program."""
    made(["cargo", "build", "--release", *CARGO, "--manifest-path", str(ROOT / "tests/oracle/Cargo.toml")])
