"""The master of a name, as Redis Sentinel reports it."""
from __future__ import annotations

import dataclasses
from typing import Sequence

from . import connect, resp
from .url import Address


def find_master(sentinels: Sequence[Address], name: str, options: connect.Options) -> Address:
    """Returns the address of the master, with the login and the database of the sentinels' URL.

    The sentinels are asked one after the other, without a login. The first reply counts. Raises connect.Failed.
    """
    plain = dataclasses.replace(options, protocol=None, client_name=None)
    failed = connect.Failed("no sentinel is named")
    for sentinel in sentinels:
        bare = dataclasses.replace(sentinel, user=None, password=None, database=0, protocol=None, client_name=None)
        try:
            with connect.open(bare, plain) as connection:
                reply = resp.ask(connection, "SENTINEL", "GET-MASTER-ADDR-BY-NAME", name)
            if reply is not None:
                return sentinel.at(reply[0].decode(), int(reply[1]))
            failed = connect.Failed(f"the sentinel {sentinel.place} knows no master {name}")
        except connect.Failed as error:
            failed = error
        except (OSError, resp.ReplyError, resp.ProtocolError) as error:
            failed = connect.Failed(f"the sentinel {sentinel.place}: {error}")
    raise failed
