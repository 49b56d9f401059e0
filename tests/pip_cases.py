"""The cases of tests/python.sh in which pip installs the package into a virtual environment."""

import os
import subprocess
import sys

import numpy

import futskheri

HERE = os.path.join(os.path.dirname(os.path.abspath(__file__)), "..")
SONAME = "libfutskheri.so." + futskheri.__version__.partition(".")[0]
# Works with the library, wherever that is, and tells where the package is.
WORK = """
import numpy, futskheri
values = numpy.ma.masked_equal(numpy.arange(12, dtype="i2").reshape(3, 4), 5)
back, mask = futskheri.decode(futskheri.encode(values))
assert (mask == ~values.mask).all() and (back[mask] == values.data[mask]).all()
print(futskheri.__version__, futskheri.__file__)
"""


def clean_environment():
    """The environment without what leads to the package or the library."""
    names = ("PYTHONPATH", "FUTSKHERI_LIBRARY", "PYTHONHOME", "VIRTUAL_ENV", "PKG_CONFIG_PATH")
    return {name: word for name, word in os.environ.items() if name not in names}


def run(*words, **more):
    return subprocess.run(words, stdout=subprocess.PIPE, stderr=subprocess.STDOUT, text=True, **{"env": clean_environment(), **more})


def new_environment(path):
    """A virtual environment with this Python's numpy; its Python, or nothing where none can be made."""
    if run(sys.executable, "-m", "venv", path).returncode != 0:
        return None
    python = os.path.join(path, "bin", "python")
    packages = run(python, "-c", "import sysconfig; print(sysconfig.get_path('purelib'))").stdout.strip()
    with open(os.path.join(packages, "numpy_of_the_test.pth"), "w") as file:
        file.write(os.path.dirname(os.path.dirname(numpy.__file__)) + "\n")
    return python


def files_below(folder):
    """The files that are there, but for what Python keeps of its compiled ones."""
    return sorted(
        os.path.join(place, name)
        for place, _, names in os.walk(folder)
        for name in names
        if os.path.basename(place) != "__pycache__"
    )


def contents(path):
    with open(path, "rb") as file:
        return file.read()


def links_to(library, folder):
    """A folder with the library by the name that programs ask for, as bin/install puts it."""
    os.makedirs(folder, exist_ok=True)
    os.symlink(os.path.abspath(library), os.path.join(folder, SONAME))
    return folder


def run_cases(case, room, python):
    library, project = os.environ["FUTSKHERI_LIBRARY"], os.path.join(HERE, "python")

    def works(name, **more):
        done = run(python, "-c", WORK, cwd=room, env={**clean_environment(), **more})
        case(name, done.returncode == 0 and done.stdout.startswith(f"{futskheri.__version__} {os.path.join(room, 'venv')}"))
        if done.returncode != 0:
            print(done.stdout)

    def installs(name, *words):
        done = run(python, "-m", "pip", "install", "--no-index", *words, cwd=room)
        case(name, done.returncode == 0)
        if done.returncode != 0:
            print(done.stdout)

    before = files_below(project)
    installs("pip installs the folder, without a network", project)
    case("and leaves nothing in it", files_below(project) == before)
    where = run(python, "-c", "import futskheri; print(futskheri.__path__[0])", cwd=room).stdout.strip()
    case("what is installed has its type hints", os.path.exists(os.path.join(where, "py.typed")))
    shown = run(python, "-m", "pip", "show", "futskheri").stdout
    case("pip tells its version", f"Version: {futskheri.__version__}\n" in shown)
    case("and that it takes numpy", "Requires: numpy\n" in shown)

    if run(python, "-c", f"import ctypes; ctypes.CDLL('{SONAME}')").returncode != 0:
        done = run(python, "-c", WORK, cwd=room, env={**clean_environment(), "PKG_CONFIG_LIBDIR": room})
        case("without a library it is told what to do", done.returncode == 1 and "OSError" in done.stdout and "bin/install" in done.stdout)
        bundle = "import futskheri, sys; print(len(futskheri.Bundle(sys.argv[1])))"
        empty = os.path.join(room, "empty")
        open(empty, "wb").close()
        case("and bundles are read all the same", run(python, "-c", bundle, empty, cwd=room).stdout == "0\n")
    works("the library that the environment names", FUTSKHERI_LIBRARY=library)
    wrong = run(python, "-c", WORK, cwd=room, env={**clean_environment(), "FUTSKHERI_LIBRARY": os.path.join(room, "none.so")})
    case("one that it names and that is not there is told", wrong.returncode == 1 and "none.so" in wrong.stdout)
    loader = os.pathsep.join(filter(None, [links_to(library, os.path.join(room, "loader")), os.environ.get("LD_LIBRARY_PATH")]))
    works("the library that the loader finds", LD_LIBRARY_PATH=loader)
    by_config(room, library, works)
    links_to(library, os.path.join(room, "venv", "lib"))
    works("the library that bin/install put into the environment")
    os.remove(os.path.join(room, "venv", "lib", SONAME))

    folders = (room, os.path.join(room, "loader"))
    wheels = [run(sys.executable, os.path.join(project, "backend.py"), folder, library).stdout.strip() for folder in folders]
    case("a wheel holds the library", os.path.basename(wheels[0]) == f"futskheri-{futskheri.__version__}-py3-none-linux_x86_64.whl")
    case("made once more it is the same", len({contents(path) for path in wheels}) == 1)
    installs("pip installs the wheel", "--force-reinstall", "--no-deps", wheels[0])
    works("the library that the wheel holds")
    installs("pip installs the folder with the library", "--force-reinstall", "--no-deps", "--config-settings", f"library={library}", project)
    works("which it holds then")
    built_by_script(case)


def by_config(room, library, works):
    """The library in a folder that only pkg-config knows."""
    if run("sh", "-c", "command -v pkg-config").returncode != 0:
        print("python: pkg-config is not there, its case is skipped")
        return
    folder = links_to(library, os.path.join(room, "place", "lib"))
    with open(os.path.join(folder, "futskheri.pc"), "w") as file:
        file.write(f"libdir={folder}\n\nName: futskheri\nDescription: of the test\nVersion: {futskheri.__version__}\n")
    works("the library that pkg-config knows", PKG_CONFIG_PATH=folder)


def built_by_script(case):
    """bin/build_wheel, where the library is the one that it takes."""
    script, library = os.path.join(HERE, "bin", "build_wheel"), os.path.join(HERE, "out", "libfutskheri.so")
    refuses = run(script, "word")
    case("bin/build_wheel refuses a word", (refuses.returncode, refuses.stdout) == (1, "usage: bin/build_wheel\n"))
    case("and says what it does", "linux_x86_64.whl" in run(script, "--help").stdout)
    if os.path.realpath(os.environ["FUTSKHERI_LIBRARY"]) == os.path.realpath(library):
        done = run(script, env={**clean_environment(), "PYTHON": sys.executable})
        wheel = done.stdout.split("\n")[-2] if done.returncode == 0 else ""
        case("bin/build_wheel prints the path of the wheel", wheel.endswith("linux_x86_64.whl") and os.path.exists(wheel))


def run_all(case, room):
    python = new_environment(os.path.join(room, "venv"))
    if python is None or run(python, "-m", "pip", "--version").returncode != 0:
        print("python: no virtual environment with pip can be made, its cases are skipped")
        return
    run_cases(case, room, python)
