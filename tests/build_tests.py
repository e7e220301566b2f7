"""How bin/run-program builds: in a repository with a kit that builds at once, or slowly, or not at all."""
import os
import shutil
import signal
import subprocess
import time

from support import FolderTest, command, read, run

BUILDING = 'tick: building, about three minutes\n'
RT = '''#!/bin/sh
# Stands for the kit's rt: notes that it was called, takes its time, and writes a program.
echo "$PWD $*" >>"$NOTES"
echo "some line of the build"
sleep "${SECONDS_TO_BUILD:-0}"
[ -z "${BUILD_FAILS:-}" ] || exit 1
mkdir -p out
printf '#!/bin/sh\\n%s\\n' "${PROGRAM:-echo yes 0}" >out/tick
chmod +x out/tick
'''
LOADER_FILE = 'toolchain/lib/ld-linux-x86-64.so.2'
LOADER = '#!/bin/sh\nshift 2\nexec "$@"\n'


class Build(FolderTest):

    def setUp(self):
        super().setUp()
        for name in ('tick', 'run-program'):
            self.write('repo/bin/' + name, read(command(name)), 0o755)
        self.write('repo/crates.txt', 'tick:\n')
        self.source = self.write('repo/crates/tick/src/main.rt', 'fn main() {}\n')
        self.kit('kit')
        self.environment = {**os.environ, 'PATH': self.path('kit/bin') + ':' + os.environ['PATH'],
                            'NOTES': self.path('notes')}
        self.environment.pop('RATTLE_HOME', None)

    def kit(self, name):
        self.write(f'{name}/bin/rt', RT, 0o755)
        self.write(f'{name}/{LOADER_FILE}', LOADER, 0o755)

    def start(self, **environment):
        return subprocess.Popen([self.path('repo/bin/tick')], env={**self.environment, **environment},
                                text=True, stdin=subprocess.DEVNULL, stdout=subprocess.PIPE,
                                stderr=subprocess.PIPE, start_new_session=True)

    def tick(self, cwd=None, **environment):
        return run([self.path('repo/bin/tick')], cwd=cwd, env={**self.environment, **environment})

    def builds(self):
        """How often rt was called."""
        return len(read(self.path('notes')).splitlines()) if os.path.exists(self.path('notes')) else 0

    def wait_for_build(self):
        until = time.monotonic() + 20
        while not self.builds():
            self.assertLess(time.monotonic(), until, 'no build was begun')
            time.sleep(0.01)

    def test_built_once(self):
        self.ends(self.tick(), 0, 'yes 0\n', BUILDING)
        self.ends(self.tick(), 0, 'yes 0\n', '')
        self.assertEqual(self.builds(), 1)
        self.assertEqual(read(self.path('notes')).decode(),
                         os.path.realpath(self.path('repo/crates/tick')) + ' run\n')

    def test_the_log_is_in_a_file(self):
        self.tick()
        self.assertEqual(read(self.path('repo/target/run/tick.log')), b'some line of the build\n')

    def test_built_again_after_an_edit(self):
        for edit in (lambda: self.write('repo/crates/tick/src/main.rt', 'fn main() { }\n'),
                     lambda: self.write('repo/crates.txt', 'tick: \n'),
                     lambda: self.write('repo/crates/tick/src/more.rt', ''),
                     lambda: os.unlink(self.path('repo/crates/tick/src/more.rt')),
                     lambda: self.write('repo/crates/tick/specs/Lib.antt', ''),
                     lambda: shutil.rmtree(self.path('repo/crates/tick/specs')),
                     lambda: os.unlink(self.path('repo/crates/tick/out/tick'))):
            self.ends(self.tick(), 0, 'yes 0\n')
            time.sleep(0.02)
            edit()
            self.ends(self.tick(), 0, 'yes 0\n', BUILDING)
            self.ends(self.tick(), 0, 'yes 0\n', '')

    def test_built_again_after_an_edit_with_an_old_date(self):
        self.tick()
        time.sleep(0.02)
        self.write('repo/crates/tick/src/main.rt', 'fn main() { }\n')
        os.utime(self.source, (1, 1))
        self.ends(self.tick(), 0, 'yes 0\n', BUILDING)

    def test_built_again_after_an_edit_during_the_build(self):
        first = self.start(SECONDS_TO_BUILD='1')
        self.wait_for_build()
        time.sleep(0.1)
        self.write('repo/crates/tick/src/main.rt', 'fn main() { }\n')
        self.assertEqual(first.communicate(), ('yes 0\n', BUILDING))
        self.ends(self.tick(), 0, 'yes 0\n', BUILDING)

    def test_six_at_once_build_once(self):
        self.tick()
        time.sleep(0.02)
        self.write('repo/crates/tick/src/main.rt', 'fn main() { }\n')
        started = [self.start(SECONDS_TO_BUILD='1') for _ in range(6)]
        said = [process.communicate(timeout=60) for process in started]
        self.assertEqual([process.returncode for process in started], [0] * 6)
        self.assertEqual([out for out, _ in said], ['yes 0\n'] * 6)
        self.assertEqual([err for _, err in said].count(BUILDING), 1)
        self.assertLessEqual({err for _, err in said}, {BUILDING, 'tick: waiting for another build\n', ''})
        self.assertEqual(self.builds(), 2)

    def test_a_build_that_is_killed_lets_the_lock_go(self):
        first = self.start(SECONDS_TO_BUILD='100')
        self.wait_for_build()
        os.killpg(first.pid, signal.SIGKILL)
        first.communicate()
        ran = run([self.path('repo/bin/tick')], env=self.environment, timeout=20)
        self.ends(ran, 0, 'yes 0\n', BUILDING)

    def test_a_build_that_fails(self):
        said = BUILDING + 'tick: the build failed; its log is target/run/tick.log\n'
        self.ends(self.tick(BUILD_FAILS='1'), 2, '', said)
        self.ends(self.tick(BUILD_FAILS='1'), 2, '', said)
        self.ends(self.tick(), 0, 'yes 0\n', BUILDING)

    def test_a_build_that_fails_after_an_edit(self):
        self.tick()
        time.sleep(0.02)
        self.write('repo/crates/tick/src/main.rt', 'fn main() { wrong }\n')
        self.ends(self.tick(BUILD_FAILS='1'), 2, '')

    def test_no_rt(self):
        said = 'tick: rt, the command of the Rattle kit, is not on the PATH\n'
        bare = self.path('tools')
        os.mkdir(bare)
        for tool in ('sh', 'find', 'mkdir', 'touch', 'flock'):
            os.symlink(shutil.which(tool), os.path.join(bare, tool))
        self.ends(self.tick(PATH=bare), 2, '', said)
        self.ends(self.tick(), 0, 'yes 0\n', BUILDING)
        self.ends(self.tick(PATH=bare), 0, 'yes 0\n', '')

    def test_target_cannot_be_written(self):
        self.write('repo/target', 'a file stands here')
        self.ends(self.tick(), 2, '',
                  'tick: cannot build: the folder target/ of the repository cannot be written\n')
        self.assertEqual(self.builds(), 0)

    def test_from_any_folder_with_cdpath(self):
        os.makedirs(self.path('other/repo/bin'))
        ran = run(['repo/bin/tick'], cwd=self.folder, env={**self.environment, 'CDPATH': self.path('other')})
        self.ends(ran, 0, 'yes 0\n', BUILDING)
        self.assertEqual(read(self.path('notes')).decode(), self.path('repo/crates/tick') + ' run\n')

    def test_rt_through_a_link(self):
        os.mkdir(self.path('links'))
        os.symlink(self.path('kit/bin/rt'), self.path('links/rt'))
        path = self.path('links') + ':' + os.environ['PATH']
        self.ends(self.tick(PATH=path), 0, 'yes 0\n', BUILDING)

    def test_a_kit_without_this_machine(self):
        loader = self.path('kit', LOADER_FILE)
        os.unlink(loader)
        self.ends(self.tick(), 2, '', f'tick: the Rattle kit has nothing for this machine: no {loader}\n')

    def test_a_kit_that_has_moved(self):
        self.tick()
        os.rename(self.path('kit'), self.path('moved'))
        self.environment['PATH'] = self.path('moved/bin') + ':' + os.environ['PATH']
        self.ends(self.tick(), 0, 'yes 0\n', BUILDING)
        self.ends(self.tick(), 0, 'yes 0\n', '')

    def test_the_kit_that_is_named(self):
        self.kit('other')
        os.unlink(self.path('kit', LOADER_FILE))
        self.ends(self.tick(RATTLE_HOME=self.path('none')), 2, '',
                  f'tick: there is no folder {self.path("none")} (RATTLE_HOME)\n')
        self.ends(self.tick(RATTLE_HOME=self.path('other')), 0, 'yes 0\n', BUILDING)
        self.ends(self.tick(), 0, 'yes 0\n', '')

    def test_the_emulator_on_arm(self):
        self.write('kit/toolchain/bin/qemu-x86_64', '#!/bin/sh\necho emulated >&2\nexec "$@"\n', 0o755)
        self.ends(self.tick(), 0, 'yes 0\n', BUILDING + 'emulated\n')

    def test_a_program_that_gives_no_verdict(self):
        self.ends(self.tick(PROGRAM='exit 3'), 2, '',
                  BUILDING + 'tick: the program gave no verdict (exit status 3)\n')

    def test_a_program_that_prints_something_else(self):
        self.ends(self.tick(PROGRAM='echo maybe'), 2, '',
                  BUILDING + 'tick: the program gave no verdict (exit status 0)\n')

    def test_run_program_alone(self):
        ran = run([self.path('repo/bin/run-program'), 'tick'], env=self.environment)
        self.ends(ran, 0, 'yes 0\n', BUILDING)
        self.ends(run([self.path('repo/bin/run-program')], env=self.environment), 2, '',
                  'run-program: usage: run-program NAME\n')
        self.ends(run([self.path('repo/bin/run-program'), 'tock'], env=self.environment), 2, '',
                  'tock: there is no such program\n')
