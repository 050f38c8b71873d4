"""What the subcommands share that ask a server themselves: which server, its connection, and what goes wrong."""
from __future__ import annotations

import argparse
import contextlib
import socket
from typing import Iterator, List, Tuple

from .. import cluster, connect, resp, sentinel, url
from .options import connection_options, take_url


def take_words(arguments: argparse.Namespace) -> Tuple[List[url.Address], List[str]]:
    """Returns the servers of the URL, or of REDIS_URL, and the other words that are no options.

    argparse takes positional words of any number only if they are beside one another, and leaves the others in
    `arguments.rest`. Words after `--` may begin with a hyphen. Raises connect.Failed, if an option is unknown too.
    """
    for word in arguments.rest:
        if word.startswith("-") and word != "-":
            raise connect.Failed(f"{word} is unknown: jagyerti {arguments.subcommand} --help", connect.USAGE)
    given, words = take_url(arguments.words + arguments.rest)
    servers = url.all_from_words(given, url.PORT if arguments.sentinel is None else url.SENTINEL_PORT)
    if len(servers) > 1 and arguments.sentinel is None:
        raise connect.Failed("several hosts are for --sentinel", connect.USAGE)
    return servers, words + arguments.after


def find_server(arguments: argparse.Namespace, servers: List[url.Address]) -> Tuple[url.Address, connect.Options]:
    """Returns the server, which sentinels are asked for with --sentinel, and how to connect with it."""
    options = connection_options(arguments, servers)
    if arguments.sentinel is None:
        return servers[0], options
    return sentinel.find_master(servers, arguments.sentinel, options), options


@contextlib.contextmanager
def failures_of(address: url.Address, options: connect.Options) -> Iterator[None]:
    """Turns what an open connection raises into connect.Failed."""
    try:
        yield
    except resp.ReplyError as error:
        raise connect.Failed(f"the server replies {error}") from None
    except socket.timeout:
        raise connect.Failed(f"{address.place} says nothing for {options.timeout:g} seconds", connect.SILENT) from None
    except (OSError, resp.ProtocolError) as error:
        raise connect.Failed(f"{address.place}: {error}") from None


def open_at_key(address: url.Address, options: connect.Options, key: str) -> socket.socket:
    """Connects to the node of a cluster that has the key. Outside a cluster that is the server itself."""
    for _ in range(cluster.MOST_REDIRECTIONS):
        connection = connect.open(address, options)
        try:
            resp.ask(connection, "XLEN", key)
            return connection
        except resp.ReplyError as error:
            connection.close()
            moved = cluster.cluster_error(str(error).encode())
            if moved is None or moved.code != b"MOVED":
                raise
            address = address.at(moved.host.decode() or address.host, moved.port)
        except BaseException:
            connection.close()
            raise
    raise connect.Failed(f"{cluster.MOST_REDIRECTIONS} redirections in a row, the last one to {address.place}")
