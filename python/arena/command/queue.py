"""`arena queue`: its commands and their words."""
import argparse

from arena.command import queue_looks, queueing
from arena.command.words import JOB_WORDS, Command, Completes, from_to, option, positional, seconds

STATES = ("scheduled", "ready", "running", "complete", "fault", "canceled", "dead")
ENDED = STATES[3:]



def lease(text: str) -> float:
    """The seconds of a lease, as a word. A dispatcher renews it three times in them."""
    found = seconds(text)
    if found < 1:
        raise argparse.ArgumentTypeError(f"{text}: a number of seconds, 1 or more")
    return found


QUEUE = option("-q", "--queue", help="the queue's file, or its URL in PostgreSQL; else ARENA_QUEUE", metavar="FILE",
               completes=Completes.FILE)
SYNCHRONOUS = option("--synchronous", help="full, unless this says otherwise: each commit is on the disk before it is "
                     "acknowledged. normal: the end of the machine, though not of a process, may lose the last ones",
                     choices=("full", "normal"))
NUMBER = positional("JOB", "the job's number in the queue", type=int)
NUMBERS = positional("JOB", "the jobs' numbers in the queue", type=int, nargs="+")

INNER = (
    Command("init", "make a queue, or bring its tables up to date",
            "Makes the queue's file, or its tables in PostgreSQL, or brings the tables up to date, and says how long jobs are kept "
            "that have ended: 7 days and 1,000,000 jobs, unless the words say otherwise.", "arena queue init -q /var/lib/arena/queue.sqlite",
            queueing.init,
            (QUEUE, option("--keep", help="keep ended jobs for so long; 0 is for ever", type=seconds, metavar="SECONDS"),
             option("--keep-jobs", help="keep so many ended jobs at most, of all tenants; 0 is all", type=int, metavar="N"),
             option("--reuse", help="whether the tenant's serial jobs get the value of an earlier job with the same program and "
                    "arguments, without being run", choices=("yes", "no")))),
    Command("submit", "keep a job to be run, and print its number",
            "Keeps a job and prints its number: from then on it is not lost. With --lines a job is kept for each line of standard "
            "input, in transactions of 1,000.", "arena queue submit examples/jobs/fib.job --args 20 --key order-17",
            queueing.submit,
            (*JOB_WORDS, QUEUE, option("--key", help="two jobs of the tenant with one key are one job", metavar="KEY"),
             option("--priority", help="jobs of a higher one are run first; 0, unless this says otherwise", type=int, default=0,
                    metavar="N"),
             option("--delay", help="run it so much later", type=seconds, metavar="SECONDS"),
             option("--failures", help="how often it may be lost before it is dead; 20, unless this says otherwise", type=int,
                    default=20, metavar="N"),
             option("--lines", help="a job for each line X, X Y or X Y KEY of standard input", action="store_true"), SYNCHRONOUS)),
    Command("program", "keep the program of a job, and print its hash",
            "Keeps the program of a job and prints its hash, so that jobs can name it: over HTTP as `program`, and in SQL as that of "
            "arena_submit(..). It stays though no job has it.", "arena queue program examples/jobs/fib.job", queueing.program,
            (*JOB_WORDS, QUEUE)),
    Command("run", "run a dispatcher, which runs the jobs on hosts",
            "Runs the queue's jobs on hosts until SIGTERM or Ctrl-C, and then lets those end that are under way, for 30 seconds. Any "
            "number of dispatchers may run; each host has one of them at a time.", "arena queue run /var/lib/arena", queueing.run,
            (positional("D", "a host's run folder, or its socket", Completes.FOLDER, nargs="+"), QUEUE,
             option("--lease", help="for how long its jobs are left to it if it is silent; 10, unless this says otherwise",
                    type=lease, default=10.0, metavar="SECONDS"),
             option("--window", help="jobs under way on a connection; 64, unless this says otherwise", type=from_to(1), default=64,
                    metavar="N"),
             option("--lanes", help="connections for each tenant at a host; 1, unless this says otherwise", type=from_to(1), default=1,
                    metavar="N"),
             option("--connections", help="connections to each host; 32, unless this says otherwise", type=from_to(1), default=32,
                    metavar="N"), SYNCHRONOUS)),
    Command("wait", "wait until jobs have ended, and print their values",
            "Waits until all of these jobs have ended, and prints what came of each as `run` does. The status is that of the worst "
            "one, or 7 if --timeout is over before.", "arena queue wait 17 --timeout 60", queue_looks.wait, (NUMBERS, QUEUE)),
    Command("result", "print the values of jobs, or how far they are",
            "Prints what came of each job as `run` does, or how far it is; the status is then 4.", "arena queue result 17 --json",
            queue_looks.result, (NUMBERS, QUEUE)),
    Command("list", "print jobs, the newest first", "Prints jobs, the newest first, a line each.",
            "arena queue list --state dead", queue_looks.listing,
            (QUEUE, option("--state", help="only those in this state", choices=STATES),
             option("--limit", help="how many; 50, unless this says otherwise", type=from_to(1), default=50, metavar="N"),
             option("--before", help="only those whose number is lower", type=int, metavar="JOB"))),
    Command("show", "print a job, and what happened to it", "Prints all that is known of a job, and what happened to it out of the "
            "ordinary: each time that it was lost, and why.", "arena queue show 17", queue_looks.show, (NUMBER, QUEUE)),
    Command("cancel", "cancel jobs",
            "Cancels jobs that are not running. One that is running is not run again, and its host is told if it can still be; its "
            "outcome says what came of it. The status is 1 if one had ended before.", "arena queue cancel 17", queueing.cancel,
            (NUMBERS, QUEUE)),
    Command("retry", "run jobs again that ended without a value",
            "Runs jobs again that ended with a fault, were cancelled, or are dead.", "arena queue retry --dead", queueing.retry,
            (positional("JOB", "the jobs' numbers in the queue", type=int, nargs="*"), QUEUE,
             option("--dead", help="all those that are dead, 10,000 at most", action="store_true"))),
    Command("purge", "remove jobs that ended long ago",
            "Removes jobs that ended before a time, and programs that no job has any more. Dispatchers remove what is kept no longer "
            "by themselves; this is for more.", "arena queue purge --before 86400 --state complete", queueing.purge,
            (QUEUE, option("--before", help="how long ago", type=seconds, required=True, metavar="SECONDS"),
             option("--state", help="only those in this state; may be given several times", choices=ENDED, action="append"))),
    Command("stats", "print how many jobs there are, and who runs them",
            "Prints how many jobs of each tenant are in each state, how long the oldest ready one waits, and the dispatchers that "
            "live.", "arena queue stats --json", queue_looks.stats, (QUEUE,)),
    Command("token", "make a token with which one may ask over HTTP for a tenant",
            "Makes a token for a tenant and prints it; the queue keeps only its hash. --revoke makes all tokens of the tenant "
            "worthless, within 10 seconds where one is in use.", "arena queue token -t acme --note shop", queueing.token,
            (QUEUE, option("--note", help="what the token is for", default="", metavar="TEXT"),
             option("--rate", help="requests a second; what `serve` says, unless this says otherwise", type=float, metavar="N"),
             option("--bytes", help="how long a request may be; what `serve` says, unless this says otherwise", type=int, metavar="N"),
             option("--revoke", help="make all tokens of the tenant worthless", action="store_true"))),
    Command("serve", "serve the queue over HTTP",
            "Serves the queue over HTTP, for whoever has a token, until SIGTERM or Ctrl-C. It needs aiohttp. It speaks no TLS: put a "
            "proxy in front where other machines ask.", "arena queue serve --listen 127.0.0.1:9780", queueing.serve,
            (QUEUE, option("--listen", help="where; 127.0.0.1:9780, unless this says otherwise", default="127.0.0.1:9780",
                           metavar="ADDRESS:PORT"),
             option("--rate", help="requests a second for each token; 100, unless this or the token says otherwise", type=float,
                    default=100.0, metavar="N"),
             option("--bytes", help="how long a request may be; 8388608, unless this or the token says otherwise", type=int,
                    default=8 * 1024 * 1024, metavar="N"),
             option("--processes", help="how many processes serve; 1, unless this says otherwise", type=int, default=1, metavar="N"))),
)

COMMANDS = (
    Command("queue", "keep jobs until they have their outcome",
            "A durable queue before hosts: jobs are kept in a file or in PostgreSQL, and dispatchers run them on hosts, whatever dies "
            "meanwhile (docs/QUEUE.md).", "arena queue submit examples/jobs/fib.job --args 20", inner=INNER),
)
