"""`arena metrics`: a host's status for Prometheus, for who watches its health, and as a page."""
import argparse
import sys

from arena.command.call import Call, WordsFault
from arena.command.words import FOLDER, Command, Status, option
from arena.host.address import Address

HERE_ALONE = "127.0.0.1:9753"


def address(text: str) -> Address:
    """An address, as a word."""
    try:
        return Address.parse(text)
    except ValueError as fault:
        raise argparse.ArgumentTypeError(f"{text}: {fault}; write ADDRESS:PORT, as {HERE_ALONE} or "
                                         "[::1]:9753") from None


def metrics(call: Call) -> int:
    """Serves the status until the keyboard ends it."""
    from arena.host.web import MetricsServer, Watcher  # which take long to load, and no other command needs them
    folder, where = call.folder, call.words.listen
    if not where.is_loopback and not call.words.open_to_network:
        raise WordsFault(f"--listen {where}: other machines reach this address, and anybody there may read the status; "
                         "say --open-to-network too if that is meant")
    try:
        server = MetricsServer(where, Watcher(folder))
    except OSError as fault:
        raise OSError(fault.errno, fault.strerror, str(where)) from None
    with server:
        call.output.say(f"listening at {server.url}", {"url": server.url})
        sys.stdout.flush()
        try:
            server.serve_forever()
        except KeyboardInterrupt:
            return Status.DONE
    return Status.DONE


COMMANDS = (
    Command("metrics", "serve a host's status to Prometheus and to browsers",
            "Serves by HTTP what D/status.json says: /metrics in Prometheus' text format; /healthz, which is 200 while "
            "the status is at most 5 seconds old, and else 503 with the reason; and / with a page that keeps itself up "
            "to date. It prints where it listens. The host need not run. Ctrl-C ends it with status 0. docs/HOST.md "
            "lists the metrics.",
            "arena metrics /var/lib/arena --listen 127.0.0.1:9753", metrics,
            (FOLDER, option("--listen", help=f"where to listen; port 0 is any that is free; {HERE_ALONE} without it",
                            type=address, metavar="ADDRESS:PORT", default=Address.parse(HERE_ALONE)),
             option("--open-to-network", help="let --listen name an address that other machines reach; nobody is asked "
                    "for a password", action="store_true"))),
)
