"""Connections that are logged in: TCP, Unix socket or TLS, then HELLO or AUTH, SELECT, CLIENT SETNAME."""
from __future__ import annotations

import dataclasses
import socket
import ssl
import struct
from typing import List, Optional, Union

from . import resp
from .url import Address

FAILED, USAGE, SILENT = 1, 2, 3
TCP_USER_TIMEOUT = 18  # of linux/tcp.h


class Failed(Exception):
    """Why there is no connection, or no program, and the exit status that says so."""

    def __init__(self, text: str, status: int = FAILED) -> None:
        super().__init__(text)
        self.status = status


@dataclasses.dataclass(frozen=True)
class Options:
    """How to connect. The files are those of TLS.

    A protocol is 2 or 3. Without one, here and in the address, no HELLO is sent. Protocol and name go before the address's.
    """

    timeout: float = 10.0
    protocol: Optional[int] = None
    client_name: Optional[str] = None
    cacert: Optional[str] = None
    cert: Optional[str] = None
    key: Optional[str] = None
    verify: bool = True


def open(address: Address, options: Options = Options()) -> socket.socket:
    """Connects and logs in. Raises Failed: with the status 3 if the server is silent, and else with 1."""
    connection: Optional[socket.socket] = None
    try:
        connection = _reach(address, options)
        if address.is_tls:
            connection = _with_tls(connection, address, options)
        _log_in(connection, address, options)
        opened, connection = connection, None
        return opened
    except socket.timeout:
        raise Failed(f"{address.place} says nothing for {options.timeout:g} seconds", SILENT) from None
    except resp.ProtocolError as error:
        raise Failed(f"{address.place}: {error}") from None
    except OSError as error:
        raise Failed(f"no connection with {address.place}: {error}") from None
    finally:
        if connection is not None:
            connection.close()


def set_limits(connection: socket.socket, silence: float, timeout: float) -> None:
    """Makes a read or a write of whoever has the socket fail after `silence` seconds, 0 for never.

    On TCP, keepalive finds a machine that is gone after about `timeout` seconds.
    """
    connection.setblocking(True)
    limit = struct.pack("ll", int(silence), int(silence % 1 * 1_000_000))
    connection.setsockopt(socket.SOL_SOCKET, socket.SO_RCVTIMEO, limit)
    connection.setsockopt(socket.SOL_SOCKET, socket.SO_SNDTIMEO, limit)
    if connection.family in (socket.AF_INET, socket.AF_INET6):
        each = max(1, min(int(timeout / 4), 30_000))
        connection.setsockopt(socket.SOL_SOCKET, socket.SO_KEEPALIVE, 1)
        connection.setsockopt(socket.IPPROTO_TCP, socket.TCP_KEEPIDLE, each)
        connection.setsockopt(socket.IPPROTO_TCP, socket.TCP_KEEPINTVL, each)
        connection.setsockopt(socket.IPPROTO_TCP, socket.TCP_KEEPCNT, 3)
        connection.setsockopt(socket.IPPROTO_TCP, TCP_USER_TIMEOUT, int((silence or timeout) * 1000))
        connection.setsockopt(socket.IPPROTO_TCP, socket.TCP_NODELAY, 1)


def _reach(address: Address, options: Options) -> socket.socket:
    if not address.is_unix:
        return socket.create_connection((address.host, address.port), timeout=options.timeout)
    connection = socket.socket(socket.AF_UNIX, socket.SOCK_STREAM)
    try:
        connection.settimeout(options.timeout)
        connection.connect(address.path)
    except BaseException:
        connection.close()
        raise
    return connection


def _with_tls(connection: socket.socket, address: Address, options: Options) -> socket.socket:
    try:
        context = ssl.create_default_context(cafile=options.cacert)
        if not options.verify:
            context.check_hostname, context.verify_mode = False, ssl.CERT_NONE
        if options.cert:
            context.load_cert_chain(options.cert, options.key)
        return context.wrap_socket(connection, server_hostname=address.host)
    except socket.timeout:
        connection.close()
        raise
    except OSError as error:
        connection.close()
        raise Failed(f"no TLS with {address.place}: {error}") from None


def _log_in(connection: socket.socket, address: Address, options: Options) -> None:
    for words in _greeting(address, options):
        try:
            resp.ask(connection, *words)
        except resp.ReplyError as error:
            raise Failed(f"{words[0]}: the server replied {error}") from None


def _greeting(address: Address, options: Options) -> List[List[Union[str, int]]]:
    """Returns the commands of a new connection, in order."""
    user, password = address.user, address.password
    protocol, name = options.protocol or address.protocol, options.client_name or address.client_name
    commands: List[List[Union[str, int]]] = []
    if protocol:
        login = ["AUTH", user or "default", password] if password is not None else []
        commands.append(["HELLO", protocol, *login])
    elif password is not None:
        commands.append(["AUTH", *([user] if user else []), password])
    if address.database:
        commands.append(["SELECT", address.database])
    if name:
        commands.append(["CLIENT", "SETNAME", name])
    return commands
