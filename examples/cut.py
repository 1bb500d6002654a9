"""The cut of four samples through a shared library: python3 cut.py ./libmtb.so"""
import ctypes
import sys

mtb = ctypes.CDLL(sys.argv[1])
size = ctypes.c_size_t
mtb.mtb_threshold.argtypes = [ctypes.c_char_p, size, size, size, ctypes.c_uint8, ctypes.POINTER(ctypes.c_uint16)]
mtb.mtb_threshold.restype = ctypes.c_uint32

samples = bytes([0, 10, 20, 30])
cut = ctypes.c_uint16()
status = mtb.mtb_threshold(samples, len(samples), 4, 1, 50, ctypes.byref(cut))
print("cut", cut.value) if status == 0 else print("refused", status)
