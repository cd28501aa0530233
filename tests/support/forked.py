"""Work in processes that are forked."""
import multiprocessing
import queue

FORK = multiprocessing.get_context("fork")


def in_processes(count, work):
    """What the work returns in so many processes at once. They take as long as they take: what one of them raises is
    printed, and ends the wait."""
    found, results = FORK.Queue(), []
    started = [FORK.Process(target=lambda number=number: found.put(work(number)), daemon=True)
               for number in range(count)]
    for it in started:
        it.start()
    while len(results) < count:
        # (whoever has ended has written its result before)
        have_ended = [it.exitcode for it in started if it.exitcode is not None]
        try:
            results.append(found.get(timeout=0.5 if len(have_ended) < count else 10))
        except queue.Empty:
            assert not any(have_ended) and len(have_ended) < count, f"processes have ended with {have_ended}"
    return results
