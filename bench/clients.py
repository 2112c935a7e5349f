"""The command-line clients of MariaDB and PostgreSQL, as sessions that take one statement after another."""

import os
import select
import subprocess

import mariadb
import postgres

END = "end of the reply"


def has_mariadb():
    """Returns whether MariaDB's server and client are installed."""
    return all(map(mariadb.find, ("mariadbd", "mariadb-install-db", "mariadb")))


def has_postgres():
    """Returns whether PostgreSQL's server and client are installed."""
    return all(map(postgres.find, ("initdb", "postgres", "psql")))


class Client:
    """A session: statements go in, and the lines of each reply come out, its fields with tabs between them."""

    def __init__(self, words, marker, **environment):
        self.marker = marker
        self.process = subprocess.Popen(words, env=dict(os.environ, **environment), encoding="utf-8",
                                        stdin=subprocess.PIPE, stdout=subprocess.PIPE, stderr=subprocess.STDOUT)

    def send(self, statement):
        self.process.stdin.write(f"{statement};\n{self.marker}\n")
        self.process.stdin.flush()

    def waits(self, seconds=0.5):
        """Returns whether the reply to a statement that was sent has not come after so long."""
        return not select.select([self.process.stdout], [], [], seconds)[0]

    def take(self):
        """Returns the lines of a reply, or the first line of an error alone."""
        lines = []
        while True:
            line = self.process.stdout.readline()
            if not line:
                raise EOFError("the client has ended: " + " ".join(lines))
            if line == END + "\n":
                return next(([line] for line in lines if line.startswith("ERROR")), lines)
            lines.append(line.rstrip("\n"))

    def run(self, *statements):
        """Returns the lines of the reply to the last of some statements."""
        lines = []
        for statement in statements:
            self.send(statement)
            lines = self.take()
        return lines

    def close(self):
        self.process.stdin.close()
        self.process.wait()
        self.process.stdout.close()


def of_mariadb(server):
    """Returns a session at a server of `mariadb.py`, in UTC."""
    client = Client([mariadb.find("mariadb"), "--no-defaults", "--batch", "--skip-column-names", "--unbuffered", "--force",
                     "--default-character-set=utf8mb4", "--host=127.0.0.1", f"--port={server.port}",
                     f"--user={mariadb.USER}", "bench"], f"SELECT '{END}';", MYSQL_PWD=server.password)
    client.run("SET time_zone = '+00:00'")
    return client


def of_postgres(server):
    """Returns a session at a server of `postgres.py`, in UTC."""
    return Client([postgres.find("psql"), "--no-psqlrc", "--quiet", "--no-align", "--tuples-only", "--field-separator=\t",
                   f"--host={server.folder}", f"--username={postgres.USER}", "postgres"], f"\\echo {END}",
                  PGTZ="UTC", PGOPTIONS="-c client_min_messages=error")
