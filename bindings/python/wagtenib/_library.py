"""The shared library: where it is, how it is made of dist/, and which functions it has."""

from __future__ import annotations

import ctypes
import functools
import hashlib
import os
import pathlib
import platform
import subprocess
import tempfile

PROCESSORS = {"x86_64": "amd64", "aarch64": "arm64"}
_NUMBER, _SIZE, _BYTES, _CODE = ctypes.c_uint64, ctypes.c_size_t, ctypes.c_char_p, ctypes.c_uint32
_OUT, _LENGTH, _FIELD = ctypes.c_void_p, ctypes.POINTER(ctypes.c_uint64), ctypes.POINTER(ctypes.c_uint32)
_NUMBERS = _LENGTH
# An argument of the header that is a pointer and a length, and output of a length that only the call knows.
_LIST, _OUTPUT = (_BYTES, _SIZE), (_OUT, _SIZE, _LENGTH)

# The result and the arguments of each function, as include/wagtenib.h has them.
FUNCTIONS = {
    "wagtenib_leaf_hash": (None, (*_LIST, _OUT)),
    "wagtenib_verify_inclusion": (_CODE, (_BYTES, _NUMBER, _NUMBER, *_LIST, _BYTES)),
    "wagtenib_verify_consistency": (_CODE, (_NUMBER, _NUMBER, _BYTES, _BYTES, *_LIST)),
    "wagtenib_check_subtree": (_CODE, (_NUMBER, _NUMBER)),
    "wagtenib_verify_subtree": (_CODE, (_NUMBER, _NUMBER, _NUMBER, _BYTES, _BYTES, *_LIST)),
    "wagtenib_evaluate_subtree_path": (_CODE, (_BYTES, _NUMBER, _NUMBER, _NUMBER, *_LIST, _OUT)),
    "wagtenib_cover_range": (_CODE, (_NUMBER, _NUMBER, _LENGTH, _LENGTH)),
    "wagtenib_root": (_CODE, (*_LIST, _OUT)),
    "wagtenib_decode_leaf": (_CODE, (*_LIST, _OUT)),
    "wagtenib_push": (_CODE, (_NUMBER, _SIZE, _OUT, _SIZE, _BYTES, ctypes.POINTER(_SIZE))),
    "wagtenib_subtrees_root": (None, (*_LIST, _OUT)),
    "wagtenib_guard_first_head": (_CODE, (_OUT, _OUT, _OUT)),
    "wagtenib_guard_head": (_CODE, (*_LIST, _OUT, *_LIST, _NUMBER, _OUT)),
    "wagtenib_guard_receipt": (_CODE, (*_LIST, *_LIST, _NUMBER, *_LIST)),
    "wagtenib_guard_receipts": (_CODE, (*_LIST, _NUMBER, *_LIST, *_LIST, _NUMBERS, _SIZE)),
    "wagtenib_guard_state": (_CODE, (*_LIST, *_LIST, _OUT)),
    "wagtenib_node_accept": (_CODE, (_OUT, _OUT, *_LIST)),
    "wagtenib_step_begin": (_CODE, (_NUMBER, *_OUTPUT)),
    "wagtenib_step_needs": (_CODE, (*_LIST, *_OUTPUT)),
    "wagtenib_step": (_CODE, (*_LIST, *_LIST, *_LIST, *_LIST, _NUMBER, _NUMBER, *_OUTPUT)),
    "wagtenib_step_claim": (_CODE, (*_LIST, _NUMBER, _NUMBER, *_LIST, *_LIST, *_OUTPUT)),
    "wagtenib_step_resume": (_CODE, (*_LIST, *_LIST, *_LIST, *_OUTPUT)),
    "wagtenib_node_next": (_CODE, (_OUT, _OUT, _OUT)),
    "wagtenib_node_start": (_CODE, (*_LIST, _OUT)),
    "wagtenib_lock_text": (_CODE, (*_LIST, *_LIST, _NUMBER, _NUMBER, *_OUTPUT)),
    "wagtenib_lock_state": (_CODE, (*_LIST, _OUT, _LENGTH)),
    "wagtenib_batch_name": (None, (_OUT, _OUT)),
    "wagtenib_batch_state": (_CODE, (*_LIST, _OUT)),
    "wagtenib_root_tiles": (_CODE, (_NUMBER, *_OUTPUT)),
    "wagtenib_path_tiles": (_CODE, (_NUMBER, _NUMBER, *_OUTPUT)),
    "wagtenib_proof_tiles": (_CODE, (_NUMBER, _NUMBER, *_OUTPUT)),
    "wagtenib_root_of_tiles": (_CODE, (_NUMBER, *_LIST, _NUMBERS, _SIZE, _OUT)),
    "wagtenib_path_of_tiles": (_CODE, (_NUMBER, _NUMBER, *_LIST, _NUMBERS, _SIZE, *_OUTPUT)),
    "wagtenib_proof_of_tiles": (_CODE, (_NUMBER, _NUMBER, *_LIST, _NUMBERS, _SIZE, *_OUTPUT)),
    "wagtenib_precertificate_entry": (_CODE, (*_LIST, *_OUTPUT, _FIELD)),
    "wagtenib_promised_leaf": (_CODE, (*_LIST, *_LIST, _NUMBER, *_LIST, *_OUTPUT, _FIELD)),
    "wagtenib_check_promise": (_CODE, (*_LIST, *_LIST, _NUMBER, *_LIST, _NUMBER, _NUMBER, *_LIST, _BYTES, _FIELD)),
    "wagtenib_witness_first": (_CODE, (*_LIST, *_LIST, _NUMBER, *_LIST, _NUMBER, *_OUTPUT)),
    "wagtenib_witness_cosign": (_CODE, (*_LIST, *_LIST, _NUMBER, *_LIST, _NUMBER, *_OUTPUT)),
    "wagtenib_witness_state": (_CODE, (*_LIST, *_LIST, _OUT)),
    "wagtenib_certificate_names": (_CODE, (_CODE, *_LIST, *_OUTPUT, _FIELD)),
    "wagtenib_watched_names": (_CODE, (_CODE, *_LIST, *_LIST, *_OUTPUT, _FIELD)),
    "wagtenib_names_in_bytes": (_CODE, (*_LIST, *_LIST, *_OUTPUT)),
    "wagtenib_checkpoint_text": (_CODE, (*_LIST, _NUMBER, _BYTES, *_OUTPUT)),
    "wagtenib_read_checkpoint": (_CODE, (*_LIST, _OUT)),
    "wagtenib_tree_head_signature": (None, (_OUT, _OUT)),
    "wagtenib_cosignature_message": (_CODE, (_NUMBER, *_LIST, *_OUTPUT)),
    "wagtenib_note_key_id": (None, (*_LIST, ctypes.c_uint8, *_LIST, _OUT)),
    "wagtenib_log_id": (None, (*_LIST, _OUT)),
    "wagtenib_data_tile_leaves": (_CODE, (*_LIST, *_OUTPUT, _LENGTH)),
    "wagtenib_compare_data_tile": (_CODE, (*_LIST, _NUMBER, *_LIST, _LENGTH)),
    "wagtenib_monitor_entry": (_CODE, (_NUMBER, *_LIST, _LENGTH)),
    "wagtenib_monitor_begin": (_CODE, _OUTPUT),
    "wagtenib_monitor_start": (_CODE, (_OUT, *_LIST, *_OUTPUT)),
    "wagtenib_monitor_head": (_CODE, (*_LIST, _OUT, _OUT, *_OUTPUT)),
    "wagtenib_monitor_entries": (_CODE, (*_LIST, _NUMBER, *_LIST, _NUMBERS, _SIZE, _OUT, _OUT, *_OUTPUT)),
    "wagtenib_monitor_proof": (_CODE, (*_LIST, *_LIST, _OUT, *_OUTPUT)),
    "wagtenib_monitor_older": (_CODE, (*_LIST, _OUT, *_LIST, _OUT, *_OUTPUT)),
    "wagtenib_compare_heads": (_CODE, (_OUT, _OUT)),
    "wagtenib_version": (_CODE, ()),
}


class Unavailable(OSError):
    """The library is not made, and cannot be."""


def sources() -> list[pathlib.Path]:
    """The files that the library is made of."""
    processor = PROCESSORS.get(platform.machine())
    if processor is None:
        raise Unavailable(f"wagtenib: dist/ has code for x86_64 and aarch64, and this machine is {platform.machine()}")
    folder = pathlib.Path(os.environ.get("WAGTENIB_SOURCES") or pathlib.Path(__file__).resolve().parents[3] / "dist")
    return [folder / f"libwagtenib_linux_{processor}.s", folder / "memory.c"]


def make(into: pathlib.Path) -> None:
    """Has gcc make the library, which only shows the functions of the header."""
    with tempfile.TemporaryDirectory(prefix="wagtenib-") as folder:
        shown = pathlib.Path(folder) / "shown"
        shown.write_text("{ global: wagtenib_*; local: *; };\n")
        made = pathlib.Path(folder) / "libwagtenib.so"
        words = [os.environ.get("CC", "gcc"), "-std=c11", "-O2", "-fPIC", "-shared", f"-Wl,--version-script={shown}", *sources(), "-o", made]
        try:
            ran = subprocess.run(words, capture_output=True, text=True, check=False)
        except OSError as fault:
            raise Unavailable(f"wagtenib: {words[0]} cannot be run: {fault} (install gcc)") from fault
        if ran.returncode:
            raise Unavailable(f"wagtenib: {words[0]} made no library: {ran.stderr.strip()[-400:]}")
        into.parent.mkdir(parents=True, exist_ok=True)
        # (another process may make the same file at the same time)
        with tempfile.NamedTemporaryFile(dir=into.parent, delete=False) as file:
            file.write(made.read_bytes())
        os.chmod(file.name, 0o755)
        os.replace(file.name, into)


def path() -> pathlib.Path:
    """Where the library is. It is made if it is not there."""
    given = os.environ.get("WAGTENIB_LIBRARY")
    if given:
        return pathlib.Path(given)
    files = sources()
    if not all(one.exists() for one in files):
        # (the loader looks for the installed one, of `make install`)
        return pathlib.Path("libwagtenib.so.0")
    mark = hashlib.sha256(b"".join(hashlib.sha256(one.read_bytes()).digest() for one in files)).hexdigest()
    cache = pathlib.Path(os.environ.get("XDG_CACHE_HOME") or pathlib.Path.home() / ".cache")
    found = cache / "wagtenib" / f"libwagtenib-{mark[:32]}.so"
    if not found.exists():
        make(found)
    return found


@functools.cache
def load() -> ctypes.CDLL:
    """The library, whose functions have their types."""
    try:
        library = ctypes.CDLL(str(path()))
    except OSError as fault:
        raise Unavailable(f"wagtenib: the library cannot be loaded: {fault} (WAGTENIB_SOURCES names a folder with the files of dist/)") from fault
    for name, (result, arguments) in FUNCTIONS.items():
        function = getattr(library, name)
        function.restype, function.argtypes = result, arguments
    return library
