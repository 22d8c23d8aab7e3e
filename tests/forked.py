"""Commands of ./show in processes that are forked from one that has imported the package already. ./show compiles its
modules from their sources at each start, which takes longer than most commands do; what a command does is the same.
How ./show itself begins is tested in test_launcher.py and test_streams.py.

As a program: KIND SOCKET. It forks a process for each request that comes to the socket, until its standard input is
closed. KIND is `ready` for commands of this ./show, with all modules imported; or `anew` for those of a file `show`
wherever that lies, which reads and carries out its own modules: only what their texts are compiled to is known.
"""
import atexit
import gc
import importlib
import json
import os
import resource
import select
import shutil
import signal
import socket
import subprocess
import sys
import tempfile
import threading
from importlib.machinery import SourceFileLoader

TOP = os.path.dirname(os.path.dirname(os.path.abspath(__file__)))
PACKAGE = os.path.join(TOP, "python")
LONGEST = 1 << 20  # bytes of a request
SOCKET = []  # in a process that forks, and those that it forks
STUDIO = "fork_workers()"  # the code of a studio
STREAMS = ("stdin", "r"), ("stdout", "w"), ("stderr", "w")


# ---- in the process that forks, and in those that it forks

def become(request, streams):
    """Has this process be the one that was asked for, by its streams, folder, environment, words and limits."""
    if request["session"]:
        os.setsid()
    for number, stream in enumerate(streams):
        os.dup2(stream, number)
    for stream in set(streams) - {0, 1, 2}:
        os.close(stream)
    for number, (name, how) in enumerate(STREAMS):
        old = getattr(sys, "__%s__" % name)
        new = open(number, how, encoding=old.encoding, errors=old.errors, closefd=False)
        setattr(sys, name, new)
        setattr(sys, "__%s__" % name, new)
    os.chdir(request["place"])
    os.environ.clear()
    os.environ.update(request["settings"])
    sys.argv[:] = request["words"]
    signal.signal(signal.SIGINT, signal.SIG_IGN if request["deaf"] else signal.SIG_DFL)  # as ./show begins
    for limit, most in request["limits"]:
        resource.setrlimit(limit, (most, most))


def forked(link, others):
    """The text to be run in a process that was forked for a request, or None in the one that forked it; with the number
    of that process."""
    data, streams, _, _ = socket.recv_fds(link, LONGEST, len(STREAMS))
    child = os.fork()
    if child:
        for stream in streams:
            os.close(stream)
        return None, child
    for other in others:
        os.close(other)
    request = json.loads(data)
    become(request, streams)
    link.send(b"%d" % os.getpid())
    link.close()
    return request["code"], os.getpid()


def serve(path):
    """Forks a process for each request; returns in each of them, with the text that it is to run."""
    ends = {}  # by the number of an open file that says when a process has ended that process, and who asked for it
    poll, door = select.poll(), socket.socket(socket.AF_UNIX, socket.SOCK_SEQPACKET)
    door.bind(path)
    door.listen(64)
    poll.register(door, select.POLLIN)
    poll.register(0, select.POLLIN)
    sys.stdout.write("ready\n")
    sys.stdout.flush()
    gc.collect()
    gc.freeze()
    while True:
        for number, _ in poll.poll():
            if number == 0:
                sys.exit()
            if number == door.fileno():
                link, _ = door.accept()
                code, child = forked(link, [door.fileno(), *ends, *(it.fileno() for _, it in ends.values())])
                if code is not None:
                    return code
                watch = os.pidfd_open(child)
                poll.register(watch, select.POLLIN)
                ends[watch] = child, link
                continue
            child, link = ends.pop(number)
            poll.unregister(number)
            os.close(number)
            status = os.waitstatus_to_exitcode(os.waitpid(child, 0)[1])
            with link:
                try:
                    link.send(b"%d" % status)
                except OSError:
                    pass  # nobody asks any more


def end_by(run):
    """Runs a command, and ends the process with its status, without the time that forgetting all modules takes."""
    status = 0
    try:
        run()
    except SystemExit as ended:
        status = ended.code or 0
    except BaseException:
        sys.excepthook(*sys.exc_info())
        status = 1
    threading._shutdown()
    atexit._run_exitfuncs()
    for stream in (sys.stdout, sys.stderr):
        try:
            stream.flush()
        except (OSError, ValueError):
            status = status or 120
    os._exit(status)


def fork_workers():
    """Has a studio, in its process, fork its workers too; those of its buttons among them."""
    studio, asked = (importlib.import_module("hemtoghai." + it) for it in ("commands.studio", "seeing.studio_program"))
    real = asked.begin

    def begin(words, source=subprocess.PIPE):
        if words[:2] != [sys.executable, "-IS"]:
            return real(words, source)  # the program
        return Forked(SOCKET[0], ["show", *words[3:]], stdin=source, stdout=subprocess.PIPE, stderr=subprocess.PIPE,
                      start_new_session=True)
    asked.begin = studio.begin = begin


def import_all():
    """Imports the package, as ./show does; its first module."""
    with open(os.path.join(PACKAGE, "hemtoghai", "alone.py"), encoding="utf-8") as guard:
        exec(guard.read(), {"FOLDER": PACKAGE})
    for folder, folders, names in os.walk(os.path.join(PACKAGE, "hemtoghai")):
        folders[:] = [name for name in folders if name != "simulated"]
        for name in names:
            if name.endswith(".py") and name not in ("alone.py", "__init__.py"):
                place = os.path.relpath(os.path.join(folder, name[:-len(".py")]), PACKAGE)
                importlib.import_module(place.replace(os.sep, "."))
    return sys.modules["hemtoghai.__main__"]


def keep_compiled():
    """Has a text that was compiled once not be compiled again."""
    compiled, compile_it = {}, SourceFileLoader.source_to_code

    def source_to_code(self, data, path, **more):
        if bytes(data) not in compiled:
            compiled[bytes(data)] = compile_it(self, data, path, **more)
        return compiled[bytes(data)]
    SourceFileLoader.source_to_code = source_to_code


def forget():
    """Has the package be imported anew."""
    for name in [name for name in sys.modules if name.partition(".")[0] == "hemtoghai"]:
        del sys.modules[name]
    sys.meta_path[:] = [finder for finder in sys.meta_path if type(finder).__name__ != "Beside"]


def main(kind, path):
    """Forks commands."""
    SOCKET.append(path)
    if kind == "ready":
        run = import_all().run
        code = serve(path)
        end_by(lambda: (exec(code), run()))
    keep_compiled()
    import_all()
    forget()
    serve(path)
    path = os.path.abspath(sys.argv[0])
    with open(path, encoding="utf-8") as file:
        end_by(lambda: exec(compile(file.read(), path, "exec"), {"__name__": "__main__", "__file__": path}))


# ---- in the process that asks

class Forked:
    """A command that was begun, as `subprocess.Popen` begins one; `limits` are those of `resource`, and `code` is a
    text in Python that is run before."""

    def __init__(self, path, words, code="", stdin=None, stdout=None, stderr=None, cwd=None, env=None, limits=(),
                 universal_newlines=False, start_new_session=False):
        self.args, self.returncode, self.lock = words, None, threading.Lock()
        own, theirs, opened = [None] * 3, [], []
        for number, stream in enumerate((stdin, stdout, stderr)):
            if stream in (subprocess.PIPE, subprocess.DEVNULL):
                ends = list(os.pipe() if stream == subprocess.PIPE else [os.open(os.devnull, os.O_RDWR)])
                opened.append(ends.pop(0 if number == 0 else -1))
                own[number] = ends[0] if ends else None
                theirs.append(opened[-1])
            elif stream == subprocess.STDOUT:
                theirs.append(theirs[1])
            else:
                theirs.append(number if stream is None else stream if isinstance(stream, int) else stream.fileno())
        request = {"words": list(words), "code": code, "limits": list(limits),
                   "place": os.path.abspath(cwd or os.curdir), "session": start_new_session,
                   "settings": dict(os.environ if env is None else env),
                   "deaf": signal.getsignal(signal.SIGINT) == signal.SIG_IGN}
        self.link = socket.socket(socket.AF_UNIX, socket.SOCK_SEQPACKET)
        self.link.connect(path)
        socket.send_fds(self.link, [json.dumps(request).encode()], theirs)
        self.pid = int(self.link.recv(64))
        for stream in opened:
            os.close(stream)
        kind, more = ("", {"encoding": "utf-8"}) if universal_newlines else ("b", {})
        self.stdin, self.stdout, self.stderr = (
            it if it is None else open(it, how[0] + kind, **more) for it, how in zip(own, ("w", "r", "r")))

    def status_within(self, seconds):
        """Its status, or None where it runs for longer than these seconds."""
        while self.returncode is None:
            if not select.select([self.link], [], [], seconds)[0]:
                return None
            with self.lock:
                if self.returncode is None:
                    self.returncode = int(self.link.recv(64) or -signal.SIGKILL)
        return self.returncode

    def poll(self):
        return self.status_within(0)

    def wait(self, timeout=None):
        if self.status_within(timeout) is None:
            raise subprocess.TimeoutExpired(self.args, timeout)
        return self.returncode

    def send_signal(self, number):
        if self.poll() is None:
            os.kill(self.pid, number)

    def terminate(self):
        self.send_signal(signal.SIGTERM)

    def kill(self):
        self.send_signal(signal.SIGKILL)

    def communicate(self, input=None, timeout=None):
        """What it writes, and what it says, over an input; with a thread for each of its streams."""
        found, work = {}, []

        def read(name, stream):
            with stream:
                found[name] = stream.read()

        def write():
            try:
                with self.stdin:
                    if input:
                        self.stdin.write(input)
            except BrokenPipeError:
                pass
        for name in ("stdout", "stderr"):
            if getattr(self, name) and not getattr(self, name).closed:
                work.append(threading.Thread(target=read, args=(name, getattr(self, name)), daemon=True))
        if self.stdin and not self.stdin.closed:
            work.append(threading.Thread(target=write, daemon=True))
        for thread in work:
            thread.start()
        self.wait(timeout)
        for thread in work:
            thread.join(timeout)
        return found.get("stdout"), found.get("stderr")

    def __enter__(self):
        return self

    def __exit__(self, *_):
        for stream in filter(None, (self.stdin, self.stdout, self.stderr)):
            stream.close()
        self.wait()


KEPT = []  # calls that end processes which are kept for further tests


@atexit.register
def end_all():
    """Ends all that is kept; it begins anew where it is wanted."""
    for end in KEPT:
        end()


class Parent:
    """A process that forks others. It is begun when the first one is asked for, and ends with the tests."""

    def __init__(self, *words):
        self.words, self.path, self.lock = words, None, threading.Lock()
        KEPT.append(self.end)

    def socket(self):
        """The path of the socket at which it is asked."""
        with self.lock:
            if self.path is None:
                room = tempfile.mkdtemp()
                atexit.register(shutil.rmtree, room, ignore_errors=True)
                path = os.path.join(room, "socket")
                self.process = subprocess.Popen([*self.words, path], stdin=subprocess.PIPE, stdout=subprocess.PIPE)
                if self.process.stdout.readline() != b"ready\n":
                    raise OSError("there is no process that forks others")
                self.path = path
            return self.path

    def end(self):
        """Ends it, if it was begun."""
        if self.path is not None:
            self.process.communicate()
            self.path = None

    def popen(self, words, **more):
        """A command that was begun, as by `subprocess.Popen`."""
        return Forked(self.socket(), words, **more)

    def run(self, words, input=None, timeout=None, **more):
        """A command that was run to its end, as by `subprocess.run`."""
        if input is not None:
            more["stdin"] = subprocess.PIPE
        process = self.popen(words, **more)
        try:
            out, said = process.communicate(input, timeout)
        except subprocess.TimeoutExpired:
            process.kill()
            process.wait()
            raise
        process.link.close()
        return subprocess.CompletedProcess(words, process.returncode, out, said)


SHOWS, ANEW = (Parent(sys.executable, "-IS", os.path.abspath(__file__), kind) for kind in ("ready", "anew"))

if __name__ == "__main__":
    main(*sys.argv[1:])
