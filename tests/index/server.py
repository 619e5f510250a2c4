"""A PostgreSQL server of the tests' own, in a folder, and a connection to it by psql."""
import glob
import json
import os
import pwd
import shutil
import subprocess


def programs():
    found = sorted(glob.glob('/usr/lib/postgresql/*/bin'))
    if not found:
        raise SystemExit('server: there is no PostgreSQL below /usr/lib/postgresql: tools/install tests')
    return found[-1]


class Server:
    """with Server(folder) as server: server.words are what libpq takes. The server itself does not run as root."""

    def __init__(self, folder, address=''):
        self.data, self.socket, self.address = os.path.join(folder, 'data'), os.path.join(folder, 'socket'), address
        self.words = 'host=%s port=5432 user=postgres dbname=postgres' % self.socket
        self.as_user = []
        if os.getuid() == 0:
            user = pwd.getpwnam('postgres')
            self.as_user = ['setpriv', '--reuid=%d' % user.pw_uid, '--regid=%d' % user.pw_gid, '--clear-groups']
            os.chmod(folder, 0o755)
            for path in (self.data, self.socket):
                os.mkdir(path)
                os.chown(path, user.pw_uid, user.pw_gid)
        else:
            os.mkdir(self.socket)

    def tool(self, name, *args):
        done = subprocess.run([*self.as_user, os.path.join(programs(), name), *args], stdout=subprocess.DEVNULL, stderr=subprocess.PIPE, text=True, cwd='/')
        if done.returncode != 0:
            raise SystemExit('server: %s: %s' % (name, done.stderr))

    def __enter__(self):
        self.tool('initdb', '-D', self.data, '-U', 'postgres', '-A', 'trust', '--no-sync', '-E', 'UTF8', '--locale=C.UTF-8')
        with open(os.path.join(self.data, 'pg_hba.conf'), 'a', encoding='utf-8') as file:
            file.write('host all all samenet trust\n')
        self.start()
        return self

    def start(self):
        self.tool('pg_ctl', '-D', self.data, '-w', '-l', os.path.join(self.data, 'log'), '-o',
                  "-c listen_addresses='%s' -c unix_socket_directories='%s' -c fsync=off -c max_connections=40" % (self.address, self.socket), 'start')

    def stop(self):
        self.tool('pg_ctl', '-D', self.data, '-m', 'immediate', '-w', 'stop')

    def __exit__(self, *error):
        self.stop()
        shutil.rmtree(self.data)


def quoted(value):
    if value is None:
        return 'NULL'
    if isinstance(value, (int, float)):
        return repr(value)
    return "'%s'" % value.replace("'", "''")


class Rows(list):
    def fetchall(self):
        return list(self)

    def fetchone(self):
        return self[0] if self else None


class Psql:
    """As much of a connection of Python's sqlite3 as the world needs."""
    MARK = 'that-is-all'

    def __init__(self, words):
        self.process = subprocess.Popen(['psql', '-X', '-q', '-At', '-v', 'ON_ERROR_STOP=1', words], stdin=subprocess.PIPE, stdout=subprocess.PIPE, text=True)

    def execute(self, sql, values=()):
        sql = sql.replace('BEGIN IMMEDIATE', 'BEGIN').replace('%', '%%').replace('?', '%s') % tuple(map(quoted, values))
        asks = sql.startswith('SELECT')
        if asks:
            sql = "SELECT coalesce(json_agg(json_build_object('row', t)), '[]') FROM (%s) t" % sql
        self.process.stdin.write(sql + ';\n\\echo %s\n' % self.MARK)
        self.process.stdin.flush()
        lines = []
        while (line := self.process.stdout.readline()) != self.MARK + '\n':
            if line == '':
                raise SystemExit('psql has ended: ' + sql[:300])
            lines.append(line)
        return Rows(tuple(row['row'].values()) for row in json.loads(''.join(lines))) if asks else Rows()

    def executescript(self, sql):
        self.execute(sql.rstrip().rstrip(';'))

    def close(self):
        self.process.stdin.close()
        self.process.wait()
