"""Processes that are ended, die, hang or are missing."""
import gc
import os
import pathlib
import signal
import subprocess
import sys
import tempfile
import threading
import time
import unittest

import lifebatch

from .samples import EXAMPLES, GLIDER, GROWING, WithProgram, is_alive, script

# More generations than it goes on in a minute.
LONG = 10**6


def identifier(pattern: lifebatch.Pattern) -> int:
    return pattern._process.identifier


def wait_until(holds, seconds: float = 10) -> bool:
    end = time.monotonic() + seconds
    while time.monotonic() < end:
        if holds():
            return True
        time.sleep(0.01)
    return False


class Ends(unittest.TestCase):
    def test_close(self):
        pattern = lifebatch.parse(GLIDER)
        process = identifier(pattern)
        self.assertTrue(is_alive(process))
        pattern.close()
        pattern.close()
        self.assertFalse(is_alive(process))
        self.assertEqual(repr(pattern), "<Pattern, closed>")
        self.assertIsNone(pattern._repr_png_())
        with self.assertRaises(lifebatch.Closed):
            pattern.advance(1)

    def test_no_reference(self):
        pattern = lifebatch.parse(GLIDER)
        process = identifier(pattern)
        del pattern
        gc.collect()
        self.assertFalse(is_alive(process))

    def test_refused_open_leaves_no_process(self):
        with self.assertRaises(lifebatch.Refused):
            lifebatch.parse("nothing")
        gc.collect()
        children = pathlib.Path(f"/proc/self/task/{threading.get_native_id()}/children").read_text().split()
        self.assertFalse([it for it in children if is_alive(int(it))])

    def test_timeout(self):
        pattern = lifebatch.parse(GROWING, timeout=0.3)
        process = identifier(pattern)
        began = time.monotonic()
        with self.assertRaises(lifebatch.TimedOut) as late:
            pattern.advance(LONG)
        self.assertLess(time.monotonic() - began, 5)
        self.assertIsInstance(late.exception, TimeoutError)
        self.assertFalse(is_alive(process))
        with self.assertRaises(lifebatch.Closed):
            pattern.population

    def test_end_of_the_program(self):
        code = f"import lifebatch, os; it = lifebatch.parse({GLIDER!r}); print(it._process.identifier, flush=True)"
        ran = subprocess.run(
            [sys.executable, "-c", code], capture_output=True, text=True, check=True, env=environment()
        )
        self.assertFalse(is_alive(int(ran.stdout)))

    def test_killed_program_leaves_no_orphan(self):
        code = (
            f"import lifebatch, time\nit = lifebatch.parse({GLIDER!r})\nprint(it._process.identifier, flush=True)\n"
            "time.sleep(60)"
        )
        with subprocess.Popen(
            [sys.executable, "-c", code], stdout=subprocess.PIPE, text=True, env=environment()
        ) as program:
            process = int(program.stdout.readline())
            program.kill()
            self.assertTrue(wait_until(lambda: not is_alive(process)))

    def test_interrupt(self):
        code = (
            # A shell lets a command in the background ignore the interrupt.
            "import lifebatch, signal, sys\nsignal.signal(signal.SIGINT, signal.default_int_handler)\n"
            f"it = lifebatch.parse({GROWING!r})\nprint(it._process.identifier, flush=True)\n"
            f"try:\n    it.advance({LONG})\nexcept KeyboardInterrupt:\n"
            "    print('interrupted', it.is_open, flush=True)\n    sys.stdin.read()\n"
        )
        with subprocess.Popen(
            [sys.executable, "-c", code], stdin=subprocess.PIPE, stdout=subprocess.PIPE, text=True, env=environment()
        ) as program:
            process = int(program.stdout.readline())
            time.sleep(0.3)
            program.send_signal(signal.SIGINT)
            self.assertEqual(program.stdout.readline(), "interrupted False\n")
            # It is gone while its program goes on.
            self.assertFalse(is_alive(process))
            program.stdin.close()

    def test_fork(self):
        pattern = lifebatch.parse(GLIDER)
        child = os.fork()
        if not child:
            try:
                pattern.population
            except lifebatch.Closed:
                os._exit(7)
            os._exit(0)
        self.assertEqual(os.waitstatus_to_exitcode(os.waitpid(child, 0)[1]), 7)
        self.assertEqual(pattern.population, 5)
        pattern.close()


def environment() -> dict[str, str]:
    return {**os.environ, "PYTHONPATH": str(pathlib.Path(lifebatch.__file__).parent.parent)}


class Dies(WithProgram):
    def test_killed_between_calls(self):
        pattern = lifebatch.parse(GLIDER)
        os.kill(identifier(pattern), signal.SIGKILL)
        with self.assertRaisesRegex(lifebatch.Closed, "by signal 9"):
            pattern.population
        with self.assertRaises(lifebatch.Closed):
            pattern.population

    def test_killed_in_a_call(self):
        pattern = lifebatch.parse(GROWING)
        threading.Timer(0.3, os.kill, (identifier(pattern), signal.SIGKILL)).start()
        with self.assertRaisesRegex(lifebatch.Closed, "by signal 9"):
            pattern.advance(LONG)

    def test_killed_with_a_large_block_to_come(self):
        pattern = lifebatch.parse(GLIDER)
        os.kill(identifier(pattern), signal.SIGKILL)
        with self.assertRaises(lifebatch.Closed):
            pattern.same_as("x" * 10**7)

    def test_program_that_ends_at_once(self):
        with tempfile.TemporaryDirectory() as folder:
            os.environ["LIFEBATCH_PIPE"] = script(folder, "echo 'lifepipe: no' >&2; exit 3")
            with self.assertRaisesRegex(lifebatch.Closed, "with status 3: lifepipe: no"):
                lifebatch.parse(GLIDER)

    def test_reply_that_is_cut(self):
        with tempfile.TemporaryDirectory() as folder:
            os.environ["LIFEBATCH_PIPE"] = script(folder, "read line; echo 'ok 0'; read line; printf 'ok 100\\nabc'")
            pattern = lifebatch.parse("")
            with self.assertRaisesRegex(lifebatch.Closed, "with status 0"):
                pattern.rle()

    def test_program_that_reads_nothing(self):
        with tempfile.TemporaryDirectory() as folder:
            os.environ["LIFEBATCH_PIPE"] = script(folder, "exec sleep 100")
            began = time.monotonic()
            with self.assertRaises(lifebatch.TimedOut):
                lifebatch.parse("x" * 10**7, timeout=0.3)
            self.assertLess(time.monotonic() - began, 5)

    def test_another_program(self):
        with tempfile.TemporaryDirectory() as folder:
            os.environ["LIFEBATCH_PIPE"] = script(folder, "exec cat")
            with self.assertRaisesRegex(lifebatch.Closed, "is not lifepipe: it replies 'open 25'"):
                lifebatch.parse(GLIDER)

    def test_bad_words(self):
        with self.assertRaisesRegex(lifebatch.Closed, "with status 2: lifepipe: bad words: --workers"):
            lifebatch.parse(GLIDER, workers=65)


class Missing(WithProgram):
    def test_no_program(self):
        os.environ["LIFEBATCH_PIPE"] = "/nowhere/lifepipe"
        with self.assertRaises(lifebatch.NoProgram):
            lifebatch.open(EXAMPLES / "glider.rle")


class Threads(unittest.TestCase):
    def test_close_while_another_thread_waits(self):
        pattern, ended = lifebatch.parse(GROWING), []

        def wait():
            try:
                pattern.advance(LONG)
            except lifebatch.Closed as closed:
                ended.append(closed)

        thread = threading.Thread(target=wait)
        thread.start()
        time.sleep(0.2)
        pattern.close()
        thread.join(10)
        self.assertEqual(len(ended), 1)
        self.assertFalse(is_alive(identifier(pattern)))

    def test_calls_of_threads_follow_one_another(self):
        with lifebatch.parse(GLIDER) as pattern:
            wrong = []

            def ask():
                for _ in range(200):
                    if pattern.population != 5 or len(pattern.window(0, 0, 3, 3)) != 3:
                        wrong.append(1)

            threads = [threading.Thread(target=ask) for _ in range(4)]
            for it in threads:
                it.start()
            for it in threads:
                it.join()
            self.assertFalse(wrong)


if __name__ == "__main__":
    unittest.main()
