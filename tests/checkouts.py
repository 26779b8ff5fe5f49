"""Fresh checkouts of this repository for tests, and calls of the launcher in them."""
import os
import shutil
import subprocess
import sys

TOP = os.path.dirname(os.path.dirname(os.path.realpath(__file__)))
# What of the working tree is taken as it stands, whether or not it is committed.
AS_IT_STANDS = ("hkv", "launcher", "tests", "bench", ".gitignore", "crates.seconds")


def fresh(folder):
    """A clone with nothing built, with the launcher of this working tree."""
    subprocess.run(["git", "clone", "-q", TOP, folder], check=True)
    for name in AS_IT_STANDS:
        here, there = os.path.join(TOP, name), os.path.join(folder, name)
        if os.path.isdir(here):
            shutil.copytree(here, there, dirs_exist_ok=True, ignore=shutil.ignore_patterns("__pycache__", "out"))
        elif os.path.exists(here):
            shutil.copy2(here, there)
    return folder


# Crates of the real ones, with what each stands on, that make a small repository of the same form.
SMALL = {
    "hk_seq": "",
    "hk_num": "",
    "hk_graph": "",
    "hk_flow": "hk_graph",
    "hk_term": "hk_num indexmap",
    "hk_copy": "hk_num hk_term",
    "hkv": "hk_seq hk_flow hk_copy",
    "hkv_reject": "hk_seq",
}


def small(folder):
    """A repository with the launcher of this working tree and a few crates, for a stand-in of the kit."""
    os.makedirs(os.path.join(folder, "crates"))
    for name in ("hkv", "launcher", ".gitignore", "crates.seconds"):
        here, there = os.path.join(TOP, name), os.path.join(folder, name)
        if os.path.isdir(here):
            shutil.copytree(here, there, ignore=shutil.ignore_patterns("__pycache__"))
        elif os.path.exists(here):
            shutil.copy2(here, there)
    for name in SMALL:
        skipped = shutil.ignore_patterns("out", "proofs", "must-fail")
        shutil.copytree(os.path.join(TOP, "crates", name), os.path.join(folder, "crates", name), ignore=skipped)
    shutil.copytree(os.path.join(TOP, "crates", "hkv", "data"), os.path.join(folder, "examples"))
    with open(os.path.join(folder, "crates.txt"), "w") as file:
        file.write("# NAME: DEP DEP ..\n" + "".join(f"{name}: {below}\n" for name, below in SMALL.items()))
    git = ["git", "-C", folder, "-c", "user.name=test", "-c", "user.email=test"]
    for words in (["init", "-q"], ["add", "-A"], ["commit", "-q", "-m", "Begin"]):
        subprocess.run([*git, *words], check=True)
    return folder


def environment(rt_folder=None, **more):
    """This process's environment with a kit's command first on the PATH."""
    found = {name: value for name, value in os.environ.items() if not name.startswith(("HKV_", "STAND_IN_"))}
    if rt_folder:
        found["PATH"] = rt_folder + os.pathsep + found["PATH"]
    return {**found, **more}


def call(hkv, *words, cwd=None, env=None, timeout=3600):
    """Calls the launcher to its end."""
    return subprocess.run([hkv, *words], cwd=cwd, env=env, capture_output=True, text=True, timeout=timeout, stdin=subprocess.DEVNULL)


def start(hkv, *words, cwd=None, env=None):
    """Starts a call of the launcher."""
    return subprocess.Popen(
        [hkv, *words], cwd=cwd, env=env, stdin=subprocess.DEVNULL, stdout=subprocess.PIPE, stderr=subprocess.PIPE, text=True
    )


if __name__ == "__main__":
    sys.exit("a module for the tests beside it")
