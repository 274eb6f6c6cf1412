"""The jobs that command lines are made of, and their files."""
import given

J = [1, 1, 105, 150, 180, 2, 3000, 3, 4, 2, 3000, 5000, 0, 300, 300, 1000, 1, 200, 1, 240, 1, 8000, 4, 200, 2000]
SINGLE = [2, 2, 108, 180, 150, 2, 1118, 1, 7, 1, 5467, 30000, 804, 136, 351, 914, 2, 600, 1, 223, 1, 16000, 4, 150, 773]
# The one support of request-05.txt.
SUPPORT = [3, 1, 150, 30, 100, 9000, 6000, 300, 1000, 400, 4, 200, 2000]


def changed(job, **fields):
    """A job with fields, named f1 to f25, set to other words."""
    return [str(fields.get(f"f{k}", n)) for k, n in enumerate(job, 1)]


def job_file(job):
    return given.job_file(map(int, job))
