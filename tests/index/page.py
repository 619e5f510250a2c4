#!/usr/bin/env python3
"""page.py REQUESTS PROGRAM..: the page while edits come in: what it says, that every word from outside is escaped, and that so many odd requests leave the service up. With CHROMIUM
set to a browser, that browser looks at it."""
import http.client
import json
import os
import random
import socket
import subprocess
import sys
import tempfile
import time

from world import World

BAD = '<script>alert("x")</script>\'&'


def free_port():
    with socket.socket() as one:
        one.bind(('127.0.0.1', 0))
        return one.getsockname()[1]


def get(port, path, method='GET', body=None):
    one = http.client.HTTPConnection('127.0.0.1', port, timeout=60)
    one.request(method, path, body)
    reply = one.getresponse()
    text = reply.read().decode('utf-8')
    one.close()
    return reply, text


def wait_for(port):
    for _ in range(300):
        try:
            return get(port, '/status.json')
        except OSError:
            time.sleep(.1)
    raise SystemExit('page: it does not come up')


def must(what, truth):
    if not truth:
        raise SystemExit('page: ' + what)


def look(port):
    """The page's parts, escaped."""
    reply, text = get(port, '/')
    must('status', reply.status == 200 and "default-src 'none'" in reply.getheader('Content-Security-Policy') and '<svg' in text)
    must('the page has a script', '<script' not in text)
    reply, text = get(port, '/search?q=knort')
    must('a hit: ' + text[-300:], reply.status == 200 and '1 found' in text and 'version 1' in text and '&lt;script&gt;' in text and '<script' not in text)
    reply, text = get(port, '/search?q=%22%3E%3Cimg%20src=x%3E%20AND%20(')
    must('odd words', reply.status == 200 and '0 found' in text and '<img' not in text)
    reply, text = get(port, '/record?number=2')
    must('a tree', reply.status == 200 and 'waits for Approval' in text and '<svg' in text)
    for path in ('/record?number=999', '/record', '/nothing', '/../etc/passwd'):
        must(path, get(port, path)[0].status == 404)
    must('read only', get(port, '/', 'POST', 'x=1')[0].status == 405)
    told = json.loads(get(port, '/status.json')[1])
    must('status.json', told['records'] == 2 and told['waiting'] == 1 and told['waits'][0]['what'] == 'Approval')


def odd_requests(port, count):
    """Requests that no browser sends, several to a connection, some of them cut."""
    r = random.Random(4)
    parts = [b'GET ', b'POST ', b'/', b'/search?q=', b'%', b'%ff', b'\x00', b'\xff\xfe', b' HTTP/1.1\r\n', b' HTTP/9.9\r\n', b'\r\n\r\n', b'Host: x\r\n', b'Content-Length: 99999999\r\n',
             b'Content-Length: -1\r\n', b'Transfer-Encoding: chunked\r\n', b'A' * 3000, b'q=' * 200, b'"', b"'; DROP TABLE ri_doc; --", b'/record?number=', b'9' * 40, b'Range: bytes=0-1\r\n']
    sent = 0
    while sent < count:
        with socket.create_connection(('127.0.0.1', port), timeout=60) as one:
            one.settimeout(.5)
            try:
                for _ in range(r.randint(1, 40)):
                    one.sendall(b''.join(r.choices(parts, k=r.randint(1, 9))) + (b' HTTP/1.1\r\nHost: x\r\n\r\n' if r.random() < .7 else b''))
                    sent += 1
            except OSError:
                pass
    return sent


def browse(port, folder):
    """A browser's own view of the page, as it stands after its styles and pictures are in; with what it says against the policy."""
    browser = [os.environ['CHROMIUM'], '--headless', '--no-sandbox', '--disable-gpu', '--user-data-dir=' + os.path.join(folder, 'browser')]
    for path, words in (('/', 'From edit to searchable'), ('/search?q=knort', '1 found'), ('/record?number=2', 'waits for Approval')):
        done = subprocess.run([*browser, '--enable-logging=stderr', '--dump-dom', 'http://127.0.0.1:%d%s' % (port, path)], capture_output=True, text=True, timeout=300)
        must('the browser at %s: %s' % (path, done.stderr[-300:]), words in done.stdout and 'Content Security Policy' not in done.stderr)
    picture = os.path.join(folder, 'page.png')
    subprocess.run([*browser, '--window-size=900,1400', '--screenshot=' + picture, 'http://127.0.0.1:%d/' % port], capture_output=True, timeout=300)
    must('the browser draws nothing', os.path.getsize(picture) > 5000)
    if 'PICTURE' in os.environ:
        os.replace(picture, os.environ['PICTURE'])


def main():
    count = int(sys.argv[1])
    with tempfile.TemporaryDirectory() as folder:
        world, port = World(folder, sys.argv[2:]), free_port()
        for record, title, kind, rights in ((1, 'knort ' + BAD, 'book', 'free'), (2, 'two', 'paper', 'notice')):
            world.db.execute('INSERT INTO catalogue VALUES(?,?,?,?)', (record, title, 'body ' + BAD, json.dumps({'kind': kind, 'rights': rights})))
        world.run('work', '--once')
        service = subprocess.Popen(world.words('serve', '--http', '127.0.0.1:%d' % port), stdout=subprocess.DEVNULL)
        try:
            wait_for(port)
            look(port)
            sent = odd_requests(port, count)
            look(port)
            if 'CHROMIUM' in os.environ:
                browse(port, folder)
            world.db.execute("UPDATE catalogue SET title = 'after all that' WHERE id = 1")
            for _ in range(200):
                if 'after all that' in get(port, '/search?q=after')[1]:
                    break
                time.sleep(.05)
            else:
                raise SystemExit('page: an edit is not found')
        finally:
            service.terminate()
        must('it ends with %s' % service.wait(timeout=60), service.returncode == 0)
        print('page: as it must be, before and after %d odd requests%s' % (sent, ', in a browser too' if 'CHROMIUM' in os.environ else ''))


main()
