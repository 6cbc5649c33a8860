#!/usr/bin/env python3
"""Counts the tags of a job before it is sent, as example.c does.

    c/example.py LIBRARY < JOB

LIBRARY is the shared library that docs/C.md makes of libtagjob.a.
"""
import ctypes
import sys

LONGEST_JOB = 60000
ANSWER_BYTES = 13
WORK_BYTES = 1400

library = ctypes.CDLL(sys.argv[1])
library.count_tags.restype = ctypes.c_uint32
library.count_tags.argtypes = [
    ctypes.c_char_p, ctypes.c_size_t,
    ctypes.c_void_p, ctypes.c_size_t,
    ctypes.c_void_p, ctypes.c_size_t,
]

job = sys.stdin.buffer.read()
if len(job) > LONGEST_JOB:
    sys.exit(f"the job has {len(job)} bytes; {LONGEST_JOB} are the most")
answer = ctypes.create_string_buffer(ANSWER_BYTES)
work = ctypes.create_string_buffer(WORK_BYTES)
print(library.count_tags(job, len(job), answer, ANSWER_BYTES, work, WORK_BYTES))
