"""Reads the cases that verify.c reads, and compares what libwagtenib answers with what is wanted. Called with the shared object."""
import ctypes
import sys

library = ctypes.CDLL(sys.argv[1])
u64, size, text = ctypes.c_uint64, ctypes.c_size_t, ctypes.c_char_p
library.wagtenib_verify_inclusion.argtypes = [text, u64, u64, text, size, text]
library.wagtenib_verify_consistency.argtypes = [u64, u64, text, text, text, size]
library.wagtenib_verify_inclusion.restype = library.wagtenib_verify_consistency.restype = ctypes.c_uint32

cases = wrong = 0
for line in sys.stdin:
    kind, wanted, a, b, first, second, *path = line.split()
    first, second, hashes = bytes.fromhex(first), bytes.fromhex(second), bytes.fromhex("".join(path))
    if kind == "inclusion":
        answer = library.wagtenib_verify_inclusion(first, int(a), int(b), hashes, len(path), second)
    else:
        answer = library.wagtenib_verify_consistency(int(a), int(b), first, second, hashes, len(path))
    cases += 1
    if answer != int(wanted):
        wrong += 1
        print(f"case {cases}: {answer}, wanted {wanted}")
print(f"Python: {cases} proofs, {wrong} answered otherwise than wanted")
sys.exit(wrong != 0 or cases == 0)
