"""One run of `PROGRAM replay`: python3 -I -S bench/one_run.py PROGRAM LINES ANSWERS

Prints the milliseconds of wall time and of processor time (user and system, with that of children), and the MiB of peak memory. The
status is that of the program. The peak memory of a program begins with what its parent has when it forks. So this imports next to
nothing, and less than 6 MiB are shown as some 5."""
import os
import sys
import time


def main():
    program, lines, answers = sys.argv[1:]
    began = time.perf_counter()
    child = os.fork()
    if child == 0:
        try:
            os.dup2(os.open(lines, os.O_RDONLY), 0)
            os.dup2(os.open(answers, os.O_WRONLY | os.O_CREAT | os.O_TRUNC, 0o600), 1)
            os.execvp(program, [program, "replay"])
        except OSError as error:
            sys.exit(f"bench: {program}: {error}")
    _, status, used = os.wait4(child, 0)
    took = time.perf_counter() - began
    print(1000 * took, 1000 * (used.ru_utime + used.ru_stime), used.ru_maxrss / 1024)
    sys.exit(os.waitstatus_to_exitcode(status))


if __name__ == "__main__":
    main()
