"""What the program tells on standard error of a log, a device or memory that lets it down, a line each."""

READ_FAILED = b"read failed\n"
WRITE_FAILED = b"write failed\n"
OUT_OF_MEMORY = b"out of memory\n"
LONG_LOG = b"log longer than the limit\n"
LONG_CANONICAL = b"canonical log longer than the limit\n"

# The end of what is told of a message that is too long.
OVERSIZE = b" bytes announced, the limit is 1048575\n"


def place(line, column):
    return f"line {line} column {column}: not a log line\n".encode()


def oversize(line, length):
    return f"line {line}: {length}".encode() + OVERSIZE
