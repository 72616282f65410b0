"""Each request for memory refused in turn."""

from table import NO_MEMORY


def wrong(run, found):
    """What is wrong with the answers to the list of a run; the last is the one without a refused request."""
    *refused, last = found
    if (last.printed, last.status) != (run.answer, run.status):
        return f"{run.name}: with ample memory status {last.status}: {last.first}"
    for number, answer in enumerate(refused, 1):
        if (answer.printed, answer.status) != (f"{NO_MEMORY}\n".encode(), 1):
            return f"{run.name}: request {number} refused, and status {answer.status}: {answer.first}"
    return None if refused else f"{run.name}: it requests no memory"


def by_run(runs, found):
    """Yields each run with its answers, of the answers to all of these runs."""
    for run in runs:
        last = next(at for at, answer in enumerate(found) if not answer.was_refused)
        yield run, found[: last + 1]
        found = found[last + 1 :]


def check_runs(program, runs):
    """Checks runs with the same words. The result is what is wrong with each, and how many requests were refused."""
    found = program.answers(runs[0].words, [run.list for run in runs], refuse=True)
    complaints = [wrong(run, answers) for run, answers in by_run(runs, found)]
    return complaints, sum(answer.was_refused for answer in found)
