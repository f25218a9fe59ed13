"""Calls of one user on files of an NFS server, by libnfs: for record.py."""
import ctypes
import os

from common import console


class Share:
    """What a server exports, for the user of the process that makes it: a connection of its own."""

    def __init__(self, url: str) -> None:
        try:
            self.library = ctypes.CDLL("libnfs.so.13")
        except OSError as failed:
            raise console.Stop(f"libnfs is not there ({failed}): apt-get install libnfs13") from failed
        self.library.nfs_init_context.restype = ctypes.c_void_p
        self.library.nfs_parse_url_dir.restype = ctypes.c_void_p
        self.context = ctypes.c_void_p(self.library.nfs_init_context())
        # this sets the version and the port too
        if not self.library.nfs_parse_url_dir(self.context, url.encode()):
            raise console.Stop(f"{url} is no URL of libnfs, as nfs://127.0.0.1/data?version=4")
        host, _, path = url.removeprefix("nfs://").partition("?")[0].partition("/")
        self.tried("nfs_mount", host.encode(), f"/{path}".encode())

    def tried(self, name: str, *words: object) -> int:
        """What a function of libnfs answers; what it refuses is an error of the system."""
        answer = int(getattr(self.library, name)(self.context, *words))
        if answer < 0:
            raise OSError(-answer, os.strerror(-answer))
        return answer

    def opened(self, name: str, flags: int) -> ctypes.c_void_p:
        file = ctypes.c_void_p()
        self.tried("nfs_open", f"/{name}".encode(), flags, ctypes.byref(file))
        return file

    def read(self, name: str, width: int) -> bytes:
        """The first bytes of a file. With a width of 0 the file is opened alone."""
        file, kept = self.opened(name, os.O_RDONLY), ctypes.create_string_buffer(width or 1)
        try:
            count = self.tried("nfs_pread", file, ctypes.c_uint64(0), ctypes.c_uint64(width), kept) if width else 0
            return kept.raw[:count]
        finally:
            self.library.nfs_close(self.context, file)

    def write(self, name: str, what: bytes) -> None:
        file = self.opened(name, os.O_WRONLY)
        try:
            self.tried("nfs_pwrite", file, ctypes.c_uint64(0), ctypes.c_uint64(len(what)), what)
        finally:
            self.library.nfs_close(self.context, file)

    def set_list(self, name: str, _: int, others: int) -> None:
        self.tried("nfs_chmod", f"/{name}".encode(), 0o600 | others)

    def list_text(self, _: int, others: int) -> str:
        return f"u::rw,g::-,o::{'r' if others else '-'}"
