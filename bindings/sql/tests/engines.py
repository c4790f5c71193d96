"""SQLite and PostgreSQL, each with the extension that was built here: how they are started, asked, and how their answers are read."""
import os
import re
import shutil
import subprocess
import sys

HERE = os.path.dirname(os.path.realpath(__file__))
TOP = os.path.dirname(os.path.dirname(os.path.dirname(HERE)))
SANITIZERS = "-g -O1 -fsanitize=address,undefined -fno-sanitize-recover=all"
# Of Debian, with the folders of its programs, of its libraries and of what it shares.
POSTGRES = "/usr/lib/postgresql/15"
SHARED = "/usr/share/postgresql/15"


class Error:
    """What a database answers instead of a value. It equals any line that begins with this one."""

    def __init__(self, line):
        self.line = line

    def __eq__(self, other):
        return isinstance(other, Error) and (other.line.startswith(self.line) or self.line.startswith(other.line))

    def __repr__(self):
        return f"Error({self.line!r})"


class Json:
    """A value that is JSON in SQL."""

    def __init__(self, value):
        self.value = value

    def __repr__(self):
        return f"Json({self.value!r})"


def ran(words, **more):
    it = subprocess.run(words, stdout=subprocess.PIPE, stderr=subprocess.STDOUT, **more)
    if it.returncode != 0:
        sys.exit(f"{' '.join(words[:3])} fails:\n{it.stdout.decode(errors='replace')}")
    return it.stdout.decode(errors="replace")


def quoted(string):
    return "'" + string.replace("'", "''") + "'"


class Database:
    """Both are asked in one way: a statement a line, with a mark before it, and what it prints after the mark or on a line of standard error by its number."""

    sees_errors = True  # whether it fails where memory is misused
    rounds = False  # whether a float of four bytes is printed with the fewest digits
    fresh = ""  # what begins a session without what the others left
    kept = ()

    def keep(self, registrations):
        """Has sets registered in each later connection, if the database does not keep them itself."""

    def answers(self, statements):
        """The lines that each statement prints, or an Error."""
        path = f"{self.scratch}/{self.name}.sql"
        before = self.before()
        with open(path, "w", encoding="utf-8", newline="\n") as it:
            it.write("".join(f"{line}\n" for line in before))
            it.write("".join(f"{self.mark} #{at}#\n{statement}\n" for at, statement in enumerate(statements)))
        out, err = self.run(path)
        found = re.split(r"^#(\d+)#\n", out, flags=re.M)
        lines = {int(at): text.splitlines() for at, text in zip(found[1::2], found[2::2])}
        errors = {(int(at) - len(before)) // 2 - 1: Error(line) for at, line in re.findall(self.error, err, re.M)}
        if len(lines) != len(statements):
            sys.exit(f"{self.name} ended after {len(lines)} of {len(statements)} statements:\n{err[-2000:]}")
        return [errors.get(at, lines[at]) for at in range(len(statements))]

    def shown(self, blocks):
        """What each block of statements prints, errors too, in one session."""
        path = f"{self.scratch}/page.sql"
        with open(path, "w", encoding="utf-8", newline="\n") as it:
            it.write("".join(f"{self.mark} #{at}#\n{block}" for at, block in enumerate(blocks)))
        with open(path, "rb") as statements:
            it = subprocess.run(self.words(path), stdin=statements, cwd=TOP, env=self.environment, stdout=subprocess.PIPE, stderr=subprocess.STDOUT)
        found = re.split(r"^#(\d+)#\n", it.stdout.decode(errors="replace"), flags=re.M)
        if len(found) != 2 * len(blocks) + 1:
            sys.exit(f"{self.name} ended after {len(found) // 2} of {len(blocks)} blocks:\n{found[-1]}")
        return [self.plain(text) for text in found[2::2]]

    def values(self, questions):
        """The value of each expression, or an Error."""
        answers = self.answers([f"SELECT {self.printed(it)};" for it in questions])
        return [it if isinstance(it, Error) else self.read(it[0]) for it in answers]


class Sqlite(Database):
    name, page, mark = "SQLite", "sqlite", ".print"
    error = r"^(?:Runtime|Parse) error near line (\d+): (.*)$"

    def __init__(self, scratch, library, is_sanitized=False):
        self.scratch, self.environment = scratch, dict(os.environ)
        self.library = f"{scratch}/{'sanitized' if is_sanitized else 'plain'}"
        ran([f"{TOP}/bindings/sqlite/build", self.library], env={**os.environ, "MABRISTU_LIB": library, "CFLAGS": SANITIZERS if is_sanitized else ""})
        self.sees_errors = is_sanitized
        if is_sanitized:
            self.name = "SQLite with sanitizers"
            runtime = [subprocess.check_output(["cc", f"-print-file-name={it}"], text=True).strip() for it in ("libasan.so", "libubsan.so")]
            self.environment.update(LD_PRELOAD=" ".join(runtime), ASAN_OPTIONS="detect_leaks=1")

    def keep(self, registrations):
        self.kept = [f"SELECT {it};" for it in registrations]

    def before(self):
        return [f".load {self.library}/mabristu_sqlite", ".mode list", *self.kept]

    def run(self, path, words=("-batch",), cwd=TOP):
        with open(path, "rb") as statements:
            it = subprocess.run(["sqlite3", *words], stdin=statements, cwd=cwd, env=self.environment, stdout=subprocess.PIPE, stderr=subprocess.PIPE)
        err = it.stderr.decode(errors="replace")
        if it.returncode not in (0, 1) or "ERROR: " in err or "runtime error: " in err:
            sys.exit(f"{self.name} fails with status {it.returncode}:\n{err[-4000:]}")
        return it.stdout.decode(errors="replace"), err

    def words(self, path):
        return ["stdbuf", "-oL", "sqlite3", "-batch"]

    def plain(self, text):
        """An error without the number of its line."""
        return re.sub(r"^(\w+ error) near line \d+:", r"\1:", text, flags=re.M)

    def bytes(self, data):
        return f"x'{data.hex()}'"

    def registered(self, name, path, is_lenient=False):
        return f"pb_register({quoted(name)}, readfile({quoted(path)}), {int(is_lenient)})"

    def printed(self, expression):
        """A number with all its digits, and what else may have line feeds in hexadecimal, after the type."""
        digits = "CASE typeof(v) WHEN 'real' THEN printf('%!.17g', v) WHEN 'integer' THEN v ELSE hex(v) END"
        return f"typeof(v) || ' ' || coalesce({digits}, '') FROM (SELECT {expression} AS v)"

    def read(self, line):
        kind, text = line.split(" ", 1)
        if kind == "null":
            return None
        if kind in ("integer", "real"):
            return int(text) if kind == "integer" else float(text.replace("Inf", "inf"))
        return bytes.fromhex(text).decode() if kind == "text" else bytes.fromhex(text)

    def expected(self, value):
        """What a value of Python is in this database."""
        if isinstance(value, bool):
            return int(value)
        if isinstance(value, int) and value >= 1 << 63:
            return str(value)
        # A negative zero is printed as zero.
        return "NaN" if value != value else 0.0 if value == 0 and isinstance(value, float) else value


class Postgres(Database):
    name, page, mark, rounds = "PostgreSQL 15", "postgres", "\\echo", True
    fresh = "CREATE DATABASE shown;\n\\c shown\n"
    error = r"^psql:[^:]*:(\d+): ERROR:  (.*)$"

    def __init__(self, scratch, library):
        """Starts a server of its own on a socket in the folder. Its programs, libraries and shared files are links to the installed ones in a tree beside the
        extension: PostgreSQL finds them from where its program is, and what is installed stays as it is."""
        self.scratch, self.root = scratch, f"{scratch}/postgres"
        self.environment = {**os.environ, "PGCLIENTENCODING": "UTF8"}
        folder, shared = self.root + POSTGRES, self.root + SHARED
        for it in (f"{folder}/bin", f"{folder}/lib", f"{shared}/extension", f"{scratch}/made"):
            os.makedirs(it)
        for it in ("postgres", "initdb"):
            shutil.copy(f"{POSTGRES}/bin/{it}", f"{folder}/bin")
        for of, to in ((f"{POSTGRES}/lib", f"{folder}/lib"), (SHARED, shared), (f"{SHARED}/extension", f"{shared}/extension")):
            for it in os.listdir(of):
                if not os.path.lexists(f"{to}/{it}") and not it.startswith("mabristu"):
                    os.symlink(f"{of}/{it}", f"{to}/{it}")
        make = ["make", "-s", "-f", f"{TOP}/bindings/postgres/Makefile", f"MABRISTU_LIB={library}", f"PG_CONFIG={POSTGRES}/bin/pg_config", "COPT=-Werror"]
        ran([*make, "all"], cwd=f"{scratch}/made")
        ran([*make, "install", f"DESTDIR={self.root}"], cwd=f"{scratch}/made")
        self.start(folder)

    def as_user(self, words):
        """PostgreSQL does not run as root: then it runs as the user that its package makes."""
        return ["setpriv", "--reuid=postgres", "--regid=postgres", "--clear-groups", *words] if os.geteuid() == 0 else words

    def start(self, folder):
        data, self.socket = f"{self.root}/data", f"{self.root}/socket"
        environment = {"LC_ALL": "C.UTF-8", "PATH": "/usr/bin:/bin"}
        for it in (data, self.socket):
            os.mkdir(it)
        if os.geteuid() == 0:
            ran(["chown", "postgres", data, self.socket])
            # The user has to pass the folders above.
            for it in (self.scratch, self.root):
                os.chmod(it, 0o755)
        ran(self.as_user([f"{folder}/bin/initdb", "-D", data, "-A", "trust", "-U", "postgres", "-N", "-E", "UTF8", "--no-instructions"]), env=environment)
        self.log = open(f"{self.scratch}/postgres.log", "w+", encoding="utf-8", errors="replace")
        settings = ["listen_addresses=", f"unix_socket_directories={self.socket}", "fsync=off", "log_statement=none", "log_min_messages=warning"]
        words = [f"{folder}/bin/postgres", "-D", data, *(word for it in settings for word in ("-c", it))]
        self.server = subprocess.Popen(self.as_user(words), env=environment, cwd=data, stdout=self.log, stderr=self.log)
        for _ in range(200):
            if subprocess.run([*self.psql(), "-c", "SELECT 1"], stdout=subprocess.DEVNULL, stderr=subprocess.DEVNULL).returncode == 0:
                break
            if self.server.poll() is not None:
                break
            subprocess.run(["sleep", "0.05"])
        self.environment.update(SOCKET=self.socket, SCRATCH=self.scratch)
        ran([*self.psql(), "-c", "CREATE EXTENSION mabristu"])

    def psql(self):
        return ["psql", "-X", "-q", "-h", self.socket, "-U", "postgres", "-d", "postgres"]

    def stop(self):
        """Stops the server. Returns what its log says of a backend that crashed, or None."""
        self.server.send_signal(2)
        try:
            self.server.wait(30)
        except subprocess.TimeoutExpired:
            self.server.kill()
            self.server.wait()
        self.log.seek(0)
        crashed = [it for it in self.log if "terminated by signal" in it or "PANIC" in it or "TRAP" in it or "server process" in it]
        self.log.close()
        return "".join(crashed) or None

    def before(self):
        return ["\\pset format unaligned", "\\pset tuples_only on", "\\pset null NULL"]

    def run(self, path, words=(), cwd=TOP):
        it = subprocess.run([*self.psql(), *words, "-f", path], cwd=cwd, env=self.environment, stdout=subprocess.PIPE, stderr=subprocess.PIPE)
        return it.stdout.decode(errors="replace"), it.stderr.decode(errors="replace")

    def words(self, path):
        return [*self.psql(), "-f", path]

    def plain(self, text):
        """An error or a notice without the file and the line."""
        return re.sub(r"^psql:[^:]*:\d+: ", "", text, flags=re.M)

    def bytes(self, data):
        return f"'\\x{data.hex()}'::bytea"

    def registered(self, name, path, is_lenient=False):
        with open(path, "rb") as it:
            return f"pb_register({quoted(name)}, {self.bytes(it.read())}, {str(is_lenient).lower()})"

    def printed(self, expression):
        return f"encode(convert_to(({expression})::text, 'UTF8'), 'hex')"

    def read(self, line):
        return None if line == "NULL" else bytes.fromhex(line).decode()

    def expected(self, value):
        if isinstance(value, bool):
            return str(value).lower()
        if isinstance(value, bytes):
            return f"\\x{value.hex()}"
        return value if isinstance(value, (str, float, Json, Error)) or value is None else str(value)
