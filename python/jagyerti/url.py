"""The address of a server, as redis-cli's option -u and REDIS_URL have it.

    redis://[user[:password]@]host[:port][/database]       TCP
    rediss://[user[:password]@]host[:port][/database]      TLS
    unix://[user:password@]/path[?db=database]             a Unix socket

User, password and path are percent-decoded. An IPv6 address is in brackets. A host that is left out is 127.0.0.1. Each of
them may have settings at its end, with & between them: ?protocol=3&name=NAME. protocol is 2 or 3, the version that HELLO
says, and name is what CLIENT SETNAME says. No other settings are known.
"""
from __future__ import annotations

import dataclasses
import os
import re
from typing import Dict, List, Optional
from urllib.parse import quote, unquote_to_bytes

PORT = 6379
SENTINEL_PORT = 26379
FORM = re.compile(r"(?P<scheme>[a-z][a-z0-9+.-]*)://(?:(?P<login>.*)@)?(?P<place>[^@]*)", re.DOTALL)
ESCAPES = re.compile(r"%(?![0-9A-Fa-f]{2})")


class UrlError(ValueError):
    """The text is not the address of a server. The message has no password in it."""


@dataclasses.dataclass(frozen=True)
class Address:
    """Where a server is, and who logs in there. `str` of it masks the password."""

    scheme: str
    host: str = "127.0.0.1"
    port: int = PORT
    path: str = ""
    user: Optional[str] = None
    password: Optional[str] = dataclasses.field(default=None, repr=False)
    database: int = 0
    protocol: Optional[int] = None
    client_name: Optional[str] = None

    @classmethod
    def parse(cls, text: str) -> Address:
        """Reads a URL of one server."""
        addresses = parse_all(text)
        if len(addresses) > 1:
            raise UrlError(f"{addresses[0]} and others: wanted the URL of one server")
        return addresses[0]

    @property
    def is_tls(self) -> bool:
        """Whether the connection is encrypted."""
        return self.scheme == "rediss"

    @property
    def is_unix(self) -> bool:
        """Whether the server listens at a path of this machine."""
        return self.scheme == "unix"

    @property
    def place(self) -> str:
        """HOST:PORT, or the path: what a message names."""
        if self.is_unix:
            return self.path
        return f"[{self.host}]:{self.port}" if ":" in self.host else f"{self.host}:{self.port}"

    def at(self, host: str, port: int) -> Address:
        """Returns the same login at another server."""
        return dataclasses.replace(self, host=host, port=port)

    def __str__(self) -> str:
        login = f"{self.user or ''}{':***' if self.password is not None else ''}"
        database = f"/{self.database}" if self.database and not self.is_unix else ""
        settings = {"db": self.database if self.is_unix else 0, "protocol": self.protocol, "name": self.client_name}
        query = "&".join(f"{name}={quote(os.fsencode(str(value)))}" for name, value in settings.items() if value)
        return f"{self.scheme}://{login}{'@' if login else ''}{self.place}{database}{'?' if query else ''}{query}"


def parse_all(text: str, port: int = PORT) -> List[Address]:
    """Reads a URL that may have several hosts, with commas between them: sentinels, or nodes of a cluster.

    A host without a port has this one.
    """
    found = FORM.fullmatch(text)
    if not found or found["scheme"] not in ("redis", "rediss", "unix"):
        raise UrlError("wanted redis://HOST:PORT, rediss://HOST:PORT or unix:///PATH")
    scheme, (place, _, query) = found["scheme"], found["place"].partition("?")
    user, password = _login(found["login"])
    settings = _settings(scheme, query)
    protocol, name = int(settings.get("protocol", 0)) or None, settings.get("name")
    if scheme == "unix":
        if not place.startswith("/"):
            raise UrlError("unix://: wanted an absolute path, as in unix:///run/redis/redis.sock")
        database = _database(scheme, settings.get("db", ""))
        return [Address(scheme, "", 0, _decoded(place), user, password, database, protocol, name)]
    hosts, _, after = place.partition("/")
    places, database = [_host_and_port(scheme, one, port) for one in hosts.split(",")], _database(scheme, after)
    return [Address(scheme, host, number, "", user, password, database, protocol, name) for host, number in places]


def from_words(text: Optional[str]) -> Address:
    """Returns the address that a word of the command line says, or REDIS_URL if there is no such word.

    What the URL leaves out is taken from REDISCLI_AUTH, the password, and REDISCLI_USER, the user's name.
    """
    addresses = all_from_words(text)
    if len(addresses) > 1:
        raise UrlError("wanted the URL of one server: several hosts are for --cluster and --sentinel")
    return addresses[0]


def all_from_words(text: Optional[str], port: int = PORT) -> List[Address]:
    """Does the same for a URL that may have several hosts."""
    text = os.environ.get("REDIS_URL") if text is None else text
    if not text:
        raise UrlError("no server is named: give redis://HOST:PORT as the first word, or set REDIS_URL")
    return [_completed(address) for address in parse_all(text, port)]


def is_url(word: str) -> bool:
    """Whether a word of a command line is meant as a URL."""
    return re.match(r"[a-z][a-z0-9+.-]*://", word) is not None


def _completed(address: Address) -> Address:
    password = address.password if address.password is not None else os.environ.get("REDISCLI_AUTH") or None
    user = address.user or os.environ.get("REDISCLI_USER") or None
    if address.user and password is None:
        raise UrlError(f"{address} has a user without a password: user:password@, or :password@ without a user")
    return dataclasses.replace(address, user=user, password=password)


def _login(text: Optional[str]) -> tuple[Optional[str], Optional[str]]:
    if text is None:
        return None, None
    user, colon, password = text.partition(":")
    return _decoded(user) or None, _decoded(password) if colon else None


def _decoded(text: str) -> str:
    """Percent-decodes; a `%` without two hexadecimal digits is refused."""
    if ESCAPES.search(text):
        raise UrlError("a % of the URL is not followed by two hexadecimal digits")
    return os.fsdecode(unquote_to_bytes(text))


def _host_and_port(scheme: str, text: str, port: int) -> tuple[str, int]:
    found = re.fullmatch(r"(?:\[([0-9A-Fa-f:.]+(?:%[^\]]+)?)\]|([^:\[\]?#]*))(?::([0-9]+))?", text)
    if not found:
        raise UrlError(f"{scheme}://{text}: wanted HOST or HOST:PORT, an IPv6 address in brackets")
    port = int(found[3] or port)
    if not 0 < port < 65536:
        raise UrlError(f"{port} is not the number of a port")
    return found[1] or _decoded(found[2]) or "127.0.0.1", port


def _settings(scheme: str, query: str) -> Dict[str, str]:
    """Returns what the URL says after the question mark. Each setting may be there once."""
    known, found = (*(["db"] if scheme == "unix" else []), "protocol", "name"), {}
    for setting in query.split("&") if query else []:
        name, _, value = setting.partition("=")
        if name not in known:
            raise UrlError(f"{scheme}://: the setting {name!r} is unknown: wanted {', '.join(known)}")
        if name in found or not value:
            raise UrlError(f"{scheme}://: the setting {name} is there more than once, or without a value")
        found[name] = _decoded(value)
    if found.get("protocol", "2") not in ("2", "3"):
        raise UrlError(f"{scheme}://: the protocol {found['protocol']!r} is not 2 or 3")
    return found


def _database(scheme: str, text: str) -> int:
    if text and not (text.isascii() and text.isdecimal()):
        raise UrlError(f"{scheme}://: the database {text!r} is not a number")
    return int(text or 0)
