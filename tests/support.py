"""What the tests share: commands, a folder for each test, and random board files packed apart from words/."""
import os
import struct
import subprocess
import tempfile
import unittest

ROOT = os.path.realpath(os.path.join(os.path.dirname(__file__), '..'))
SAMPLES = os.path.join(ROOT, 'samples')
os.environ.pop('PYTHONUNBUFFERED', None)  # a full disk is to be met as users meet it


def command(name):
    return os.path.join(ROOT, 'bin', name)


def run(words, **options):
    """Runs a command; its output as text, unless the options say otherwise."""
    options = {'stdin': subprocess.DEVNULL, 'stdout': subprocess.PIPE, 'stderr': subprocess.PIPE,
               'text': True, 'timeout': 100, **options}
    if 'input' in options:
        del options['stdin']
    return subprocess.run(words, check=False, **options)


def read(path):
    with open(path, 'rb') as file:
        return file.read()


def write(path, content, mode=None):
    with open(path, 'wb') as file:
        file.write(content if isinstance(content, bytes) else content.encode())
    if mode is not None:
        os.chmod(path, mode)
    return path


def sample(name):
    return os.path.join(SAMPLES, name)


def sample_boards():
    return sorted(name for name in os.listdir(SAMPLES) if name.endswith('.board'))


class FolderTest(unittest.TestCase):
    """A test with a folder of its own."""

    def setUp(self):
        folder = tempfile.TemporaryDirectory()
        self.addCleanup(folder.cleanup)
        self.folder = os.path.realpath(folder.name)

    def path(self, *names):
        return os.path.join(self.folder, *names)

    def write(self, name, content, mode=None):
        os.makedirs(os.path.dirname(self.path(name)), exist_ok=True)
        return write(self.path(name), content, mode)

    def ends(self, ran, status, out=None, err=None):
        """The command ended with this status and wrote this."""
        expected = (status, ran.stdout if out is None else out, ran.stderr if err is None else err)
        self.assertEqual((ran.returncode, ran.stdout, ran.stderr), expected)


def pack(users, roles, clock, next_serial, holdings, permissions, rules, duties):
    """A board file, packed by document 01's table."""
    parts = [b''.join(struct.pack('<I', bits) for bits in holdings),
             b''.join(struct.pack('<HHH', *permission) for permission in permissions),
             b''.join(struct.pack('<HHHHII', *rule) for rule in rules),
             b''.join(struct.pack('<IHHHHII', *duty) for duty in duties)]
    places = [40]
    for part in parts:
        places.append(places[-1] + len(part))
    return struct.pack('<HHHHHHIIIIIII', 1, users, roles, len(permissions), len(rules), len(duties), clock,
                       next_serial, *places) + b''.join(parts)


def random_file(random):
    """A random board file that keeps the file rules; some are small, some are full."""
    small = random.random() < 0.8
    users, roles = (random.randint(1, 5), random.randint(1, 4)) if small else (random.randint(1, 64),
                                                                              random.randint(1, 32))
    actions, things = (range(2, 5), range(3)) if small else (range(2, 64), range(256))
    pairs = sorted({(random.choice(actions), random.choice(things))
                    for _ in range(random.randint(0, 6 if small else 600))})[:512]
    keys = [(kind, role) for kind in (0, 1) for role in range(roles) if random.random() < 0.6]
    bits = [random.getrandbits(roles) & random.getrandbits(roles) for _ in range(2 * len(keys) + users)]
    rules = [(kind, random.randrange(roles), role, 0, bits.pop(), bits.pop()) for kind, role in keys]
    serials = random_serials(random, random.randint(0, 6) if small else random.randint(0, 128))
    duties = [random_duty(random, serial, users, roles, actions, things) for serial in serials]
    above = serials[-1] + 1 if serials else 1
    next_serial = above if random.random() < 0.5 else random.randint(above, 4294967295)
    clock = random.choice((0, random.randint(0, 3000), random.randint(0, 4294967295)))
    return pack(users, roles, clock, next_serial, bits[:users],
                [(random.randrange(roles), *pair) for pair in pairs], rules, duties)


def random_serials(random, count):
    if random.random() < 0.5:
        return list(range(1, count + 1))
    return sorted(random.sample(range(1, 4294967295), count))


def random_duty(random, serial, users, roles, actions, things):
    longest = random.choice((20, 3000, 4294967295))
    start, end = sorted(random.randint(0, longest) for _ in range(2))
    doer = random.randrange(users)
    if random.random() < 0.5:
        return serial, doer, random.randrange(2), random.randrange(users), random.randrange(roles), start, end
    return serial, doer, random.choice(actions), random.choice(things), 0, start, end
