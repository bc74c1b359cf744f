"""What the commands of this folder have in common: their arguments, their tasks, and how they end."""
import argparse
import asyncio
import os
import sys

# The status where something that the command needs is not there.
UNAVAILABLE = 69


def parser(doc):
    it = argparse.ArgumentParser(description=doc, formatter_class=argparse.RawDescriptionHelpFormatter)
    nodes = os.environ.get("TAF_NODES", "127.0.0.1:5672")
    it.add_argument("--nodes", default=nodes, help="HOST:PORT of each node, with commas between them (TAF_NODES, or 127.0.0.1:5672)")
    it.add_argument("--name", default="taf", help="how the names of the streams begin (taf)")
    it.add_argument("--user", default="guest", help="a user of RabbitMQ (guest); the password is in RABBITMQ_PASSWORD")
    return it


def program():
    return os.path.basename(sys.argv[0])


def begin(work):
    """A task. Where it fails the program ends at once: all that counts is in the streams."""

    def look(it):
        if not it.cancelled() and it.exception():
            print(f"{program()}: {it.exception()!r}", file=sys.stderr, flush=True)
            os._exit(1)

    task = asyncio.ensure_future(work)
    task.add_done_callback(look)
    return task


def run(work, words):
    """Does work with the streams. What is wrong is told in one line."""
    try:
        import engine
    except ImportError:
        print(f"{program()}: pika is not there for {sys.executable}: apt-get install python3-pika", file=sys.stderr)
        sys.exit(UNAVAILABLE)
    try:
        sys.exit(asyncio.run(engine.use(words.nodes, work, words.user, os.environ.get("RABBITMQ_PASSWORD", "guest"))))
    except (OSError, ValueError) as it:
        sys.exit(f"{program()}: {it}")
    except KeyboardInterrupt:
        sys.exit(130)
