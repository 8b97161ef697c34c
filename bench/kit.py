"""Programs over the kit's `sqlite` alone: what the program over it can't do better. They are made, proved and built by `rt`, some
four minutes each and once: they stay in ~/.cache/ringd-bench."""
import subprocess
from pathlib import Path

BUILD = """load("@rattle//bazel/rattle:crate.bzl", "rattle_crate")

rattle_crate(
    name = "NAME",
    deps = ["@rattle//sqlite", "@rattle//sqlite_std_file"],
)
"""


def built(name, source, *words):
    """The program of this name and source, proved and built where it isn't there yet; it is run once then, with these words."""
    crate = Path.home() / ".cache" / "ringd-bench" / name
    made = crate / "out" / name
    if not made.exists():
        (crate / "src").mkdir(parents=True, exist_ok=True)
        (crate / "BUILD.bazel").write_text(BUILD.replace("NAME", name))
        (crate / "src" / "main.rt").write_text(source)
        subprocess.run(["rt", "run", "--", *words], cwd=crate, check=True, stdout=subprocess.DEVNULL)
    return made
