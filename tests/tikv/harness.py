"""What the tests of the tools have in common: a folder for files, calls of the tools, and the count of what passed."""
import contextlib
import importlib
import io
import os
import subprocess
import sys
import traceback

TOP = os.path.normpath(os.path.join(os.path.dirname(os.path.abspath(__file__)), "..", ".."))


class Harness:
    def __init__(self, program, folder):
        self.program = program
        self.folder = folder
        self.written = {}
        self.passed = 0
        self.failed = 0

    def judge(self, name, got, wanted):
        """Counts a test, and shows what it got where that isn't what was wanted."""
        if got == wanted:
            self.passed += 1
            return
        self.failed += 1
        print("tools: %s" % name)
        print("  wanted %s" % repr(wanted)[:1500])
        print("  got    %s" % repr(got)[:1500])

    def write(self, name, content):
        """Writes a file into the folder, as text or as bytes, unless it was written so before."""
        content = content.encode("ascii") if isinstance(content, str) else content
        if self.written.get(name) != content:
            self.written[name] = content
            with open(os.path.join(self.folder, name), "wb") as file:
                file.write(content)

    def tool(self, name, *words):
        """The status, standard output and standard error of a tool that is called in the folder.

        It is called in this process, which spares the start of another one.
        """
        tool = importlib.import_module(name.removesuffix(".py"))
        out, errors = io.StringIO(), io.StringIO()
        before, arguments = os.getcwd(), sys.argv
        os.chdir(self.folder)
        sys.argv = [name, *words]
        status = None
        try:
            with contextlib.redirect_stdout(out), contextlib.redirect_stderr(errors):
                tool.run_tool(name.removesuffix(".py"), tool.main)
        except SystemExit as end:
            status = end.code
        except Exception:
            errors.write(traceback.format_exc())
        finally:
            os.chdir(before)
            sys.argv = arguments
        return status, out.getvalue(), errors.getvalue()

    def ask(self, words, text):
        """The status of the program and what it writes for a text."""
        done = subprocess.run(
            [self.program, *words], input=text.encode("ascii"), capture_output=True, timeout=120
        )
        return done.returncode, done.stdout.decode("ascii")

    def refusal(self, name, answer, part, status=1):
        """Tests that a tool refused: its status, its message, and that it wrote nothing."""
        found, out, errors = answer
        message = part if part in errors and "Traceback" not in errors else errors
        self.judge(name, (found, out, message), (status, "", part))
