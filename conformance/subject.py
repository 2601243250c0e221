"""How a subject is asked: a line of words for a line of words (GRAMMAR.md, "The subject's side").

A subject is a program, or a Python file with a class `Subject`, whose method `server_hears` is the
call `server-hears`. It takes the words of the call as strings, and returns the answer."""

import importlib.util
import os
import select
import shlex
import subprocess

MOST_SECONDS = 20  # that a program may take for an answer


class Left(Exception):
    """The subject does not have this call."""


class Ours(Left):
    """A call of transcripts that asks for this library alone, and is no part of the suite."""


class Refused(Exception):
    """The subject refuses."""


class Module:
    """A Python file. Each paragraph begins with a new `Subject`."""

    def __init__(self, path):
        name = "subject_" + os.path.basename(path).removesuffix(".py")
        spec = importlib.util.spec_from_file_location(name, path)
        self.module = importlib.util.module_from_spec(spec)
        spec.loader.exec_module(self.module)

    def reset(self):
        self.subject = self.module.Subject()

    def answer(self, call, words):
        method = getattr(self.subject, call.replace("-", "_"), None)
        if method is None:
            return "lacks"
        try:
            return method(*words)
        except Exception as error:
            return f"raised {type(error).__name__}: {error}"

    def end(self):
        pass


class Program:
    """A program that is told `reset` at the beginning of each paragraph."""

    def __init__(self, command):
        self.command = shlex.split(command)
        self.start()

    def start(self):
        self.process = subprocess.Popen(self.command, stdin=subprocess.PIPE, stdout=subprocess.PIPE,
                                        stderr=subprocess.DEVNULL, text=True)

    def reset(self):
        if self.process.poll() is not None:
            self.start()
        self.answer("reset", [])

    def answer(self, call, words):
        try:
            self.process.stdin.write(" ".join([call, *words]) + "\n")
            self.process.stdin.flush()
            if not select.select([self.process.stdout], [], [], MOST_SECONDS)[0]:
                self.process.kill()
                self.process.wait()
                return f"ended after {MOST_SECONDS} s without an answer"
            came = self.process.stdout.readline()
        except BrokenPipeError:
            came = ""
        return came.rstrip("\n") if came else f"ended with status {self.process.wait()}"

    def end(self):
        try:
            self.process.stdin.close()
        except BrokenPipeError:
            pass  # it has ended by itself
        self.process.wait()


class Strange(Exception):
    """An answer that is none of the grammar: what came is the argument."""


class Asker:
    """A subject, and what it was asked."""

    def __init__(self, subject):
        self.subject = subject
        subject.reset()
        claims = subject.answer("claims", [])
        self.claims = ["rfc5389", "rfc8489"] if claims == "lacks" else claims.split()

    def ask(self, call, *words):
        """The words of an answer."""
        came = self.subject.answer(call, [str(word) for word in words])
        if came == "lacks":
            raise Left(call)
        if came == "refused":
            raise Refused
        if came.startswith(("raised ", "ended ")):
            raise Strange(came)
        return came


def subject_of(word):
    """A Python file by its path, or the command of a program."""
    is_file = word.endswith(".py") and " " not in word
    return Module(word) if is_file else Program(word)
