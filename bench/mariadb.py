"""A private MariaDB server in a folder of its own, and the part of its protocol that the benchmark needs.

The server keeps nothing safe: its folder is in memory where there is `/dev/shm`, and its log is never flushed, since
tsvd is durable in no way either. It listens on 127.0.0.1 and has one user with a password made for the run.
"""

import hashlib
import os
import secrets
import shutil
import socket
import struct
import subprocess
import tempfile
import time

SETTINGS = (
    "--bind-address=127.0.0.1", "--skip-name-resolve", "--skip-log-bin", "--sync-binlog=0",
    "--innodb-flush-log-at-trx-commit=0", "--innodb-doublewrite=0", "--innodb-flush-method=nosync",
    "--innodb-buffer-pool-size=2G", "--innodb-log-file-size=1G", "--performance-schema=OFF",
    "--transaction-isolation=REPEATABLE-READ", "--loose-innodb-snapshot-isolation=ON",
    "--character-set-server=utf8mb4", "--collation-server=utf8mb4_nopad_bin",
)
TABLE = """CREATE TABLE emp (no BIGINT, name VARCHAR(100),
  s TIMESTAMP(6) GENERATED ALWAYS AS ROW START INVISIBLE, e TIMESTAMP(6) GENERATED ALWAYS AS ROW END INVISIBLE,
  PERIOD FOR SYSTEM_TIME (s, e), PRIMARY KEY (no)) ENGINE=InnoDB WITH SYSTEM VERSIONING"""
USER = "bench"
# CLIENT_LONG_PASSWORD, CLIENT_PROTOCOL_41, CLIENT_TRANSACTIONS, CLIENT_SECURE_CONNECTION, CLIENT_PLUGIN_AUTH
CAPABILITIES = 0x1 | 0x200 | 0x2000 | 0x8000 | 0x80000
UTF8MB4 = 45
QUERY, PING = b"\x03", b"\x0e"
PATIENCE = 60


class Fault(Exception):
    """The server did not do what was asked."""


def find(name):
    """Returns the path of a program of MariaDB, or None."""
    return shutil.which(name, path=os.environ.get("PATH", "") + ":/usr/sbin:/usr/local/sbin")


def scrambled(password, salt):
    """Returns the answer of mysql_native_password to a salt."""
    once = hashlib.sha1(password.encode()).digest()
    mask = hashlib.sha1(salt + hashlib.sha1(once).digest()).digest()
    return bytes(a ^ b for a, b in zip(once, mask))


class Connection:
    """Statements to a server, one message each, and the number of rows that come back."""

    def __init__(self, port, password):
        self.socket = socket.create_connection(("127.0.0.1", port))
        self.socket.setsockopt(socket.IPPROTO_TCP, socket.TCP_NODELAY, 1)
        self.stream = self.socket.makefile("rb", 1 << 16)
        self.sequence = 0
        greeting = self.packet()
        place = greeting.index(b"\0", 1) + 5
        salt = greeting[place:place + 8] + greeting[place + 27:place + 39]
        answer = scrambled(password, salt)
        self.sequence = 1
        self.send(struct.pack("<IIB23x", CAPABILITIES, 1 << 24, UTF8MB4) + USER.encode() + b"\0"
                  + bytes([len(answer)]) + answer + b"mysql_native_password\0")
        self.done()

    def send(self, body):
        self.socket.sendall(struct.pack("<I", len(body))[:3] + bytes([self.sequence]) + body)

    def packet(self):
        head = self.stream.read(4)
        if len(head) < 4:
            raise Fault("the connection ended")
        return self.stream.read(int.from_bytes(head[:3], "little"))

    def done(self):
        """Takes a packet, and returns whether it says that all is done."""
        body = self.packet()
        if body[0] == 0xFF:
            raise Fault(body[9:].decode("utf-8", "replace"))
        return body[0] == 0x00

    def ask(self, body):
        self.sequence = 0
        self.send(body)
        if self.done():
            return 0
        self.until_end()
        return self.until_end()

    def until_end(self):
        """Takes packets up to the one that ends them, and returns how many there were."""
        count = 0
        while True:
            body = self.packet()
            if body[0] == 0xFE and len(body) < 9:
                return count
            count += 1

    def run(self, statement):
        return self.ask(QUERY + statement.encode())

    def ping(self):
        return self.ask(PING)

    def close(self):
        self.stream.close()
        self.socket.close()


class Server:
    """A server that runs from `open` to `close`."""

    def __init__(self):
        shared = "/dev/shm"
        self.folder = tempfile.mkdtemp(prefix="tsvd-bench-", dir=shared if os.path.isdir(shared) else None)
        self.password = secrets.token_hex(16)
        self.process = None
        try:
            self.open()
        except BaseException:
            self.close()
            raise

    def open(self):
        data = os.path.join(self.folder, "data")
        first = os.path.join(self.folder, "first.sql")
        with open(first, "w", encoding="utf-8") as out:
            out.write("DELETE FROM mysql.global_priv WHERE User IN ('', 'root');\nFLUSH PRIVILEGES;\n"
                      f"CREATE USER {USER}@'127.0.0.1' IDENTIFIED BY '{self.password}';\n"
                      f"GRANT ALL ON *.* TO {USER}@'127.0.0.1';\nCREATE DATABASE bench;\n")
        own = []
        if os.geteuid() == 0:
            own = ["--user=nobody"]
            shutil.chown(self.folder, "nobody")
            shutil.chown(first, "nobody")
        words = [find("mariadb-install-db"), "--no-defaults", f"--datadir={data}", "--skip-test-db",
                 "--auth-root-authentication-method=normal", *own]
        made = subprocess.run(words, capture_output=True, text=True, check=False)
        if made.returncode != 0:
            raise Fault("mariadb-install-db: " + made.stderr[-500:] + made.stdout[-500:])
        with socket.create_server(("127.0.0.1", 0)) as free:
            self.port = free.getsockname()[1]
        with open(os.path.join(self.folder, "log"), "wb") as log:
            self.process = subprocess.Popen(
                [find("mariadbd"), "--no-defaults", *own, f"--datadir={data}", f"--port={self.port}",
                 f"--socket={self.folder}/socket", f"--pid-file={self.folder}/pid", f"--init-file={first}", *SETTINGS],
                stdin=subprocess.DEVNULL, stdout=log, stderr=log)
        self.wait()

    def wait(self):
        end = time.monotonic() + PATIENCE
        while True:
            try:
                return self.connect().close()
            except (OSError, Fault):
                if self.process.poll() is not None or time.monotonic() > end:
                    with open(os.path.join(self.folder, "log"), "rb") as log:
                        raise Fault("mariadbd: " + log.read()[-800:].decode("utf-8", "replace")) from None
                time.sleep(0.1)

    def connect(self):
        return Connection(self.port, self.password)

    def close(self):
        if self.process is not None:
            self.process.terminate()
            self.process.wait()
        shutil.rmtree(self.folder, ignore_errors=True)
