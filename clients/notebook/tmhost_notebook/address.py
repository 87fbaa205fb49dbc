"""The address of a worksheet's page: its port and its secrets. They are kept in a file of this user alone, so that a page finds its server when that is
started again, and an address that was noted stays right.

Where they are kept, another user's program may take the port while no server has it, and get the secrets from a page that looks for its server.
So they count for processes of this user alone, which the server looks at (`is_of_this_user`); where it can't, as on another system than Linux,
nothing is kept.
"""

import dataclasses
import functools
import hashlib
import json
import os
import re
import secrets
import socket
import stat
import struct
from typing import Optional, Tuple

SECRET = re.compile(r"[A-Za-z0-9_-]{22}")
LONGEST = 4_096  # bytes of a file
ROOT = 0  # may do anything; it relays where a browser runs outside of a virtual machine

# Of sock_diag(7).
SOCK_DIAG, BY_FAMILY, IS_REQUEST, ESTABLISHED = 4, 20, 1, 1
ANY_STATE, ANY_DEVICE, NO_COOKIE = 2**32 - 1, 0, 2**64 - 1
HEAD = 16  # bytes of a message's head
USER_AT = HEAD + 64


def secret() -> str:
    return secrets.token_urlsafe(16)


@dataclasses.dataclass(frozen=True)
class Address:
    """`port` is 0 where one that is free is to be taken."""

    port: int = 0
    token: str = dataclasses.field(default_factory=secret)
    cookie: str = dataclasses.field(default_factory=secret)
    path: str = dataclasses.field(default_factory=secret)


# ---- the file


def file_of(sheet: str) -> str:
    """The file that keeps the address of a worksheet, whose path is resolved."""
    place = os.environ.get("XDG_RUNTIME_DIR") or os.environ.get("XDG_CACHE_HOME") or os.path.expanduser("~/.cache")
    return os.path.join(place, "tmhost-notebook", hashlib.sha256(os.fsencode(os.path.realpath(sheet))).hexdigest()[:32])


def is_private(status: os.stat_result) -> bool:
    """Whether nobody else can read or write it."""
    return status.st_uid == os.geteuid() and not stat.S_IMODE(status.st_mode) & 0o077


def read(sheet: str) -> Optional[Address]:
    """The address that was kept; None where there is none that can be relied on."""
    try:
        file = os.open(file_of(sheet), os.O_RDONLY | os.O_NOFOLLOW | os.O_NONBLOCK | os.O_CLOEXEC)
        try:
            status = os.fstat(file)
            if not stat.S_ISREG(status.st_mode) or not is_private(status) or not is_private(os.stat(os.path.dirname(file_of(sheet)))):
                return None
            kept = Address(**json.loads(os.read(file, LONGEST)))
        finally:
            os.close(file)
    except (OSError, ValueError, TypeError):
        return None
    words = (kept.token, kept.cookie, kept.path)
    is_fit = type(kept.port) is int and 0 < kept.port < 65_536 and all(isinstance(word, str) and SECRET.fullmatch(word) for word in words)
    return kept if is_fit and can_see_users() else None


def keep(sheet: str, address: Address) -> None:
    """Keeps an address. Where that can't be done the next one is another."""
    if not can_see_users():
        return
    path = file_of(sheet)
    try:
        os.makedirs(os.path.dirname(path), mode=0o700, exist_ok=True)
        new = f"{path}.{os.getpid()}"
        file = os.open(new, os.O_WRONLY | os.O_CREAT | os.O_EXCL | os.O_NOFOLLOW | os.O_CLOEXEC, 0o600)
        with open(file, "w", encoding="ascii") as written:
            json.dump(dataclasses.asdict(address), written)
        os.replace(new, path)
    except OSError:
        pass  # an address is kept for comfort alone: without it the server is as good, and its next address is another one


# ---- who is at the other end


def user_of(ours: Tuple[str, int], theirs: Tuple[str, int]) -> Optional[int]:
    """The user at the other end of a connection on this machine, as the kernel says (sock_diag(7)). None where it doesn't, or there is no such
    connection any more."""
    ends = struct.pack("!HH4s12x4s12x", theirs[1], ours[1], socket.inet_aton(theirs[0]), socket.inet_aton(ours[0]))
    asked = struct.pack("=BBBBI", socket.AF_INET, socket.IPPROTO_TCP, 0, 0, ANY_STATE) + ends + struct.pack("=IQ", ANY_DEVICE, NO_COOKIE)
    try:
        with socket.socket(socket.AF_NETLINK, socket.SOCK_DGRAM, SOCK_DIAG) as kernel:
            kernel.settimeout(1)
            kernel.send(struct.pack("=IHHII", HEAD + len(asked), BY_FAMILY, IS_REQUEST, 1, 0) + asked)
            reported = kernel.recv(LONGEST)
    except (OSError, AttributeError):
        return None
    if len(reported) < USER_AT + 4 or struct.unpack_from("=H", reported, 4)[0] != BY_FAMILY or reported[HEAD + 1] != ESTABLISHED:
        return None
    user: int = struct.unpack_from("=I", reported, USER_AT)[0]
    return user


@functools.lru_cache(maxsize=None)
def can_see_users() -> bool:
    """Whether the kernel says of a connection of this program's own whose it is."""
    try:
        with socket.create_server(("127.0.0.1", 0)) as server, socket.create_connection(server.getsockname(), 1) as one:
            other, _ = server.accept()
            with other:
                return user_of(other.getsockname(), one.getsockname()) == os.geteuid()
    except OSError:
        return False


def is_of_this_user(connection: socket.socket) -> bool:
    """Whether a process of this user is at the other end of a connection. Where the kernel doesn't say, the secrets alone count, which aren't kept
    there."""
    return not can_see_users() or user_of(connection.getsockname(), connection.getpeername()) in (os.geteuid(), ROOT)
