"""The server that has a worksheet open already: where it is, for the user who starts a second one."""

import http.client
import json
import os
from typing import Optional

from . import address
from .address import Address

HOST = "127.0.0.1"
WITHIN = 5.0  # seconds for its answer


def address_of(kept: Address) -> str:
    return f"http://{HOST}:{kept.port}/?token={kept.token}"


def answer_of(kept: Address, method: str, path: str, body: Optional[bytes] = None) -> Optional[bytes]:
    """What the server at a kept address answers; None where there is none. The secrets are sent to a process of this user alone."""
    host = f"{HOST}:{kept.port}"
    headers = {"Cookie": f"tmhost={kept.cookie}", "Origin": f"http://{host}", "Content-Type": "application/json"}
    connection = http.client.HTTPConnection(host, timeout=WITHIN)
    try:
        connection.connect()
        if not address.is_of_this_user(connection.sock):
            return None
        connection.request(method, path, body, headers)
        reply = connection.getresponse()
        return reply.read() if reply.status == http.client.OK else None
    except (OSError, http.client.HTTPException):
        return None
    finally:
        connection.close()


def has_open(kept: Address, name: str) -> bool:
    """Whether the server of a folder has this worksheet of it open."""
    reported = answer_of(kept, "POST", f"/{kept.path}/call", b'{"call":"list"}')
    try:
        sheets = json.loads(reported or b"")["sheets"]
        return any(sheet["name"] == name and sheet["state"] == "open" for sheet in sheets)
    except (ValueError, KeyError, TypeError):
        return False


def running(path: str) -> Optional[str]:
    """The address, with its token, of the server that has a worksheet open, by itself or with its folder. None where another program has it."""
    own = address.read(path)
    if own and answer_of(own, "GET", f"/?token={own.token}") is not None:
        return address_of(own)
    folder, name = os.path.split(os.path.realpath(path))
    kept = address.read(folder)
    return address_of(kept) if kept and has_open(kept, name) else None
