"""Ways to give the program its input and to take its output."""
import contextlib
import fcntl
import os
import pty
import struct
import subprocess
import termios
import threading
import time
import tty

from program import PROGRAM, SECONDS, as_bytes, file_of


@contextlib.contextmanager
def started(words, **files):
    """The running program. It is killed where a test gives up."""
    with subprocess.Popen([PROGRAM, *words], bufsize=0, **files) as running:
        try:
            yield running
        finally:
            if running.poll() is None:
                running.kill()


def bytes_waiting(pipe):
    """How many bytes of a pipe its reader hasn't taken yet."""
    return struct.unpack("i", fcntl.ioctl(pipe, termios.FIONREAD, b"\0" * 4))[0]


def feed(running, pipe, content, lengths):
    """Writes pieces of these lengths in turn, each after the one before was taken, and closes the pipe."""
    begin = turn = 0
    with os.fdopen(pipe, "wb", buffering=0) as writer:
        while begin < len(content):
            end = begin + lengths[turn % len(lengths)]
            try:
                writer.write(content[begin:end])
            except BrokenPipeError:
                return
            begin, turn = end, turn + 1
            while bytes_waiting(pipe) and running.poll() is None:
                time.sleep(0.0002)


def run_with_input_in_pieces(words, content, lengths):
    """What the program writes and its exit status, where the input comes through a pipe in pieces of these lengths."""
    reading, writing = os.pipe()
    with started(words, stdin=reading, stdout=subprocess.PIPE, stderr=subprocess.STDOUT) as running:
        os.close(reading)
        feeder = threading.Thread(target=feed, args=(running, writing, as_bytes(content), lengths))
        feeder.start()
        written, _ = running.communicate(timeout=SECONDS)
        feeder.join()
    return written, running.returncode


def run_with_slow_reader(words, content, length):
    """The same where the output is taken in pieces of at most this length, with pauses in which the pipe is full."""
    written = b""
    with file_of(content) as source, started(
        words, stdin=source, stdout=subprocess.PIPE, stderr=subprocess.STDOUT
    ) as running:
        while piece := running.stdout.read(length):
            written += piece
            time.sleep(0.0001)
        running.wait(timeout=SECONDS)
    return written, running.returncode


def run_with_output_in_file(words, content):
    """The same where the output is a file."""
    with file_of(content) as source, file_of("") as output:
        ended = subprocess.run(
            [PROGRAM, *words], stdin=source, stdout=output, stderr=subprocess.STDOUT, timeout=SECONDS
        )
        output.seek(0)
        return output.read(), ended.returncode


def run_with_input_named(words, path):
    """The same where the input is the file or folder at a path."""
    source = os.open(path, os.O_RDONLY)
    try:
        ended = subprocess.run(
            [PROGRAM, *words], stdin=source, stdout=subprocess.PIPE, stderr=subprocess.STDOUT, timeout=SECONDS
        )
    finally:
        os.close(source)
    return ended.stdout, ended.returncode


def run_with_input_that_fails_at_its_end(words, content):
    """The same where each byte is read, and the call after the last byte fails.

    That is how one end of a terminal reads once its other end is closed. The content fits the terminal's room.
    """
    reading, writing = pty.openpty()
    try:
        tty.setraw(writing)
        os.write(writing, as_bytes(content))
        os.close(writing)
        ended = subprocess.run(
            [PROGRAM, *words], stdin=reading, stdout=subprocess.PIPE, stderr=subprocess.STDOUT, timeout=SECONDS
        )
    finally:
        os.close(reading)
    return ended.stdout, ended.returncode


def status_with_output(words, content, output):
    """The exit status where the output is this open file."""
    with file_of(content) as source:
        return subprocess.run([PROGRAM, *words], stdin=source, stdout=output, timeout=SECONDS).returncode


def run_with_reader_that_stops(words, content, length):
    """The first bytes of the output, and the exit status, where the reader takes these and closes the pipe."""
    with file_of(content) as source, started(words, stdin=source, stdout=subprocess.PIPE) as running:
        written = running.stdout.read(length)
        running.stdout.close()
        running.wait(timeout=SECONDS)
    return written, running.returncode


def run_in_shell(redirection, words):
    """What the program writes and its exit status, where a shell's redirection closes a stream."""
    ended = subprocess.run(
        ["sh", "-c", f'exec "$@" {redirection}', "sh", PROGRAM, *words],
        stdin=subprocess.DEVNULL, stdout=subprocess.PIPE, timeout=SECONDS,
    )
    return ended.stdout, ended.returncode
