"""What the commands share: reading files, replacing a file whole, saying the outcome."""
import os
import stat
import sys
import unicodedata

from .line import Refused
from .names import Names
from .reader import read_boards

GREEN, RED, FAILED = 0, 1, 2


def run(name, main):
    """Ends the process with main's exit status; a refusal or failure is one sentence and status 2."""
    sys.stdout.reconfigure(encoding='utf-8', errors='surrogateescape')
    try:
        status = main()
        sys.stdout.flush()
    except (Refused, OSError) as fault:
        status = FAILED
        print(fault if isinstance(fault, Refused) else failure(name, fault), file=sys.stderr)
    except KeyboardInterrupt:
        status = 130
    sys.stderr.flush()
    os._exit(status)


def failure(name, error):
    return f'{name}: {error.filename or "cannot write standard output"}: {error.strerror}'


def is_board_file(path):
    return path.endswith('.board')


def read_bytes(path):
    if os.path.isdir(path):
        raise Refused(f'{path}: this is a folder')
    with open(path, 'rb') as file:
        return file.read()


def read_words(path):
    """The boards in words of a file."""
    data = read_bytes(path)
    if b'\0' in data:
        raise Refused(f'{path}: this is no text; a board file has a name that ends in .board')
    try:
        return read_boards(path, unicodedata.normalize('NFC', data.decode('utf-8-sig')))
    except UnicodeDecodeError as fault:
        line = data[:fault.start].count(b'\n') + 1
        raise Refused(f'{path}:{line}: this is no text in UTF-8') from None


def read_names(path, board_path):
    """The names in a file of words: of its one board, or of the one that is called like the board file."""
    if path is None:
        return Names()
    boards = read_words(path)
    name = os.path.splitext(os.path.basename(board_path))[0]
    for board in boards:
        if len(boards) == 1 or board.name == name:
            return board.names
    raise Refused(f'{path}: none of its {len(boards)} boards is called {name}')


def replace_file(path, data):
    """Puts data in the file, which is replaced only when the new one is whole."""
    path = os.path.realpath(path)
    if os.path.lexists(path) and not stat.S_ISREG(os.stat(path).st_mode):
        raise Refused(f'{path}: this is no file that can be replaced')
    new = f'{path}.{os.getpid()}.new'
    try:
        with open(new, 'xb') as file:
            file.write(data)
            file.flush()
            os.fsync(file.fileno())
        os.replace(new, path)
    except OSError:
        if os.path.lexists(new):
            os.unlink(new)
        raise
