"""Builds the wheels for `pip install .` and `pip install -e .`, which call `build_wheel` and `build_editable`.

If lib/libbufr.so.0 exists, the wheel contains this C library, so that `import bufr` works. To use another file, run
`pip install . --config-settings library=FILE`. If FILE is empty, the wheel does not contain the library.
"""
import base64
import hashlib
import pathlib
import zipfile

TOP = pathlib.Path(__file__).resolve().parent
NAME = "bufr_text-0.1.0"
METADATA = """\
Metadata-Version: 2.1
Name: bufr-text
Version: 0.1.0
Summary: Reads FM 94 BUFR messages into arrays and data frames, and reads and writes their dumps
Requires-Python: >=3.9
"""
WHEEL = """\
Wheel-Version: 1.0
Generator: build_wheel
Root-Is-Purelib: {is_pure}
Tag: {tag}
"""
PURE, WITH_LIBRARY = "py3-none-any", "py3-none-manylinux_2_34_x86_64"


def files(library: str):
    """Yields the name and contents of each file in the wheel. `library` is the path of the C library, or empty."""
    if library:
        yield "libbufr.so.0", pathlib.Path(library).read_bytes()
    for path in [*TOP.glob("scripts/*.py"), *TOP.glob("scripts/*.awk")]:  # bufr-csv needs table.awk next to the modules
        yield path.name, path.read_bytes()
    for path in TOP.glob("scripts/bufr-*"):
        # pip replaces this line with the path of its own Python.
        yield f"{NAME}.data/scripts/{path.name}", b"#!python\n" + path.read_bytes().partition(b"\n")[2]
    for path in TOP.glob("man/*.1"):
        yield f"{NAME}.data/data/share/man/man1/{path.name}", path.read_bytes()
    for path in TOP.glob("tables/wmo-*/*.csv"):
        yield f"{NAME}.data/data/share/bufr/{path.relative_to(TOP)}", path.read_bytes()


def linked_files():
    """Yields the name and contents of each file in the wheel for an editable installation, which runs the files here."""
    yield "bufr_text.pth", f"{TOP / 'scripts'}\n".encode()
    for path in TOP.glob("scripts/bufr-*"):
        words = f"#!python\nimport runpy, sys\n\nsys.argv[0] = {str(path)!r}\nrunpy.run_path(sys.argv[0], run_name='__main__')\n"
        yield f"{NAME}.data/scripts/{path.name}", words.encode()


def write_wheel(folder: str, contents) -> str:
    """Writes a wheel with these files to a directory and returns its name. The same files always make the same wheel."""
    contents = [*contents]
    is_pure = all(path != "libbufr.so.0" for path, _ in contents)
    tag = PURE if is_pure else WITH_LIBRARY
    name, record = f"{NAME}-{tag}.whl", f"{NAME}.dist-info/RECORD"
    wheel_file = WHEEL.format(tag=tag, is_pure=str(is_pure).lower())
    about = [(f"{NAME}.dist-info/METADATA", METADATA.encode()), (f"{NAME}.dist-info/WHEEL", wheel_file.encode())]
    rows = []
    with zipfile.ZipFile(pathlib.Path(folder) / name, "w") as wheel:

        def put(path: str, octets: bytes) -> None:
            info = zipfile.ZipInfo(path)
            info.external_attr = (0o100755 if "/scripts/" in path else 0o100644) << 16
            wheel.writestr(info, octets, zipfile.ZIP_DEFLATED)

        for path, octets in sorted([*contents, *about]):
            put(path, octets)
            digest = base64.urlsafe_b64encode(hashlib.sha256(octets).digest()).rstrip(b"=").decode()
            rows.append(f"{path},sha256={digest},{len(octets)}\n")
        put(record, "".join([*rows, f"{record},,\n"]).encode())
    return name


def build_wheel(folder: str, config_settings=None, metadata_directory=None) -> str:
    built = TOP / "lib/libbufr.so.0"
    return write_wheel(folder, files((config_settings or {}).get("library", str(built) if built.is_file() else "")))


def build_editable(folder: str, config_settings=None, metadata_directory=None) -> str:
    return write_wheel(folder, linked_files())
