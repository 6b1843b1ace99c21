"""A server of PostgreSQL for tests: in a folder of its own, without the rights of root, stopped by its process id."""

import os
import shutil
import signal
import subprocess
import time

from parts import Failed

BIN = "/usr/lib/postgresql/15/bin"
AS_NOBODY = {"user": "nobody", "group": "nogroup", "extra_groups": []} if os.geteuid() == 0 else {}


class Server:
    """With `with` it is there: started with settings, and with the extension that is installed below `extension`."""

    def __init__(self, folder, extension, **settings):
        self.folder, self.process = folder, None
        self.environment = {"PATH": os.environ["PATH"], "HOME": folder, "LC_ALL": "C.UTF-8"}
        if extension:
            self.environment["LD_LIBRARY_PATH"] = f"{extension}/usr/lib"
        settings = {"listen_addresses": "", "unix_socket_directories": folder, "extension_destdir": extension, "fsync": "off",
                    "shared_buffers": "64MB", **settings}
        self.words = [word for name, value in settings.items() for word in ("-c", f"{name}={value}")]

    def run(self, *words, given=None, wanted=0, env=None):
        """What a command prints that is run as the server is."""
        ran = subprocess.run(words, input=given and given.encode(), stdout=subprocess.PIPE, stderr=subprocess.STDOUT, check=False,
                             cwd=self.folder, env={**self.environment, **(env or {})}, **AS_NOBODY)
        printed = ran.stdout.decode(errors="replace")
        if wanted is not None and ran.returncode != wanted:
            raise Failed(f"{' '.join(words)} has status {ran.returncode}:\n{printed}")
        return printed

    def sql(self, statements, database="postgres", wanted=0, env=None):
        """The lines that psql prints of statements."""
        words = [f"{BIN}/psql", "-X", "-q", "-A", "-t", "-v", "ON_ERROR_STOP=1", "-h", self.folder, "-U", "postgres", "-d", database]
        return self.run(*words, given=statements, wanted=wanted, env=env).splitlines()

    def make(self):
        """Makes the folder, and what the server has there."""
        os.mkdir(self.folder)
        if AS_NOBODY:
            shutil.chown(self.folder, "nobody")
        self.run(f"{BIN}/initdb", "-D", f"{self.folder}/data", "-U", "postgres", "-A", "trust", "-E", "UTF8", "--locale=C.UTF-8", "-N")

    def alone(self, statements, before=()):
        """The status of a process that takes statements without a server, a line each, and what it prints."""
        ran = subprocess.run([*before, f"{BIN}/postgres", "--single", "-D", f"{self.folder}/data", *self.words, "postgres"], check=False,
                             input=statements.encode(), stdout=subprocess.PIPE, stderr=subprocess.STDOUT, cwd=self.folder,
                             env=self.environment, **AS_NOBODY)
        return ran.returncode, ran.stdout.decode(errors="replace")

    def __enter__(self):
        self.make()
        with open(f"{self.folder}.log", "wb") as log:
            self.process = subprocess.Popen([f"{BIN}/postgres", "-D", f"{self.folder}/data", *self.words], cwd=self.folder, stdout=log,
                                            stderr=log, stdin=subprocess.DEVNULL, env=self.environment,
                                            preexec_fn=lambda: signal.signal(signal.SIGINT, signal.SIG_DFL), **AS_NOBODY)
        try:
            self.wait()
        except BaseException:
            self.__exit__()
            raise
        return self

    def wait(self):
        for _ in range(600):
            if self.process.poll() is not None:
                break
            if "accepting" in self.run(f"{BIN}/pg_isready", "-h", self.folder, wanted=None) and self.sql("SELECT 1;", wanted=None) == ["1"]:
                return
            time.sleep(0.1)
        raise Failed(f"the server does not start:\n{self.log()}")

    def log(self):
        with open(f"{self.folder}.log", encoding="utf-8", errors="replace") as file:
            return file.read()

    def __exit__(self, *_):
        if self.process and self.process.poll() is None:
            self.process.send_signal(signal.SIGINT)  # ends sessions, and writes all out
            self.process.wait(60)
