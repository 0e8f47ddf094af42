"""The task of Celery in `run.py`: fib(n) by the same recursion as the job's."""
import os

from celery import Celery

URL = f"redis+socket://{os.environ['BENCH_REDIS']}"
app = Celery("engine", broker=URL, backend=URL)
app.conf.update(task_acks_late=True, task_reject_on_worker_lost=True, worker_prefetch_multiplier=16, worker_send_task_events=False)


@app.task
def fib(n: int) -> int:
    """The nth Fibonacci number."""
    return n if n < 2 else fib.run(n - 1) + fib.run(n - 2)
