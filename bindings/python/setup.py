"""Says where the library for C lies: in the folders SYSLOG_LOOSE_LIB and SYSLOG_LOOSE_INCLUDE, or as pkg-config says,
or where make puts it."""
import os
import subprocess

from setuptools import Extension, setup

TOP = os.path.join("..", "..")


def folders(name, flag, made):
    if name in os.environ:
        return [os.environ[name]]
    try:
        told = subprocess.run(
            ["pkg-config", flag, "syslog_loose"], stdout=subprocess.PIPE, stderr=subprocess.DEVNULL, text=True
        )
    except OSError:
        return [made]
    # (pkg-config leaves out where the compiler looks anyhow)
    return [it[2:] for it in told.stdout.split()] if told.returncode == 0 else [made]


native = Extension(
    "syslog_loose._native",
    ["src/native.c", "src/call.c", "src/message.c", "src/written.c", "src/decode.c", "src/columns.c", "src/texts.c"],
    depends=["src/native.h", "src/columns.h"],
    include_dirs=folders("SYSLOG_LOOSE_INCLUDE", "--cflags-only-I", os.path.join(TOP, "include")),
    library_dirs=folders("SYSLOG_LOOSE_LIB", "--libs-only-L", os.path.join(TOP, "out")),
    extra_compile_args=["-std=c11", "-O2"],
    extra_link_args=["-l:libsyslog_loose.a", "-Wl,--exclude-libs,ALL"],
    py_limited_api=True,
)
setup(ext_modules=[native], options={"bdist_wheel": {"py_limited_api": "cp39"}})
