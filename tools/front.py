#!/usr/bin/env python3
"""tools/front.py PORT PROGRAM..: serves GraphQL over HTTP on 127.0.0.1:PORT, by one process of PROGRAM --lines, whose state all requests share.

It takes POST of one JSON request, on any path, and answers application/json. Requests wait for one another. It bounds a request by its length alone:
stand it behind a proxy for TLS, for the time of a request and for what strangers may send."""
import json
import subprocess
import sys
import threading
from http.server import BaseHTTPRequestHandler, ThreadingHTTPServer

MOST_BYTES = 256 * 1024
TURN = threading.Lock()
SERVER = subprocess.Popen([*sys.argv[2:], "--lines"], stdin=subprocess.PIPE, stdout=subprocess.PIPE)


def answer(request):
    """The line of JSON that the program answers to a request; an error where it has ended."""
    with TURN:
        SERVER.stdin.write(json.dumps(request).encode() + b"\n")
        SERVER.stdin.flush()
        line = SERVER.stdout.readline()
    if not line.endswith(b"\n"):
        raise BrokenPipeError("the program has ended")
    return line


class Front(BaseHTTPRequestHandler):
    protocol_version = "HTTP/1.1"

    def do_POST(self):
        length = int(self.headers.get("content-length", -1))
        if not 0 <= length <= MOST_BYTES:
            self.close_connection = True
            return self.tell(413, b'{"errors":[{"message":"the body has no length, or is too long"}]}\n')
        try:
            request = json.loads(self.rfile.read(length))
        except ValueError:
            return self.tell(400, b'{"errors":[{"message":"the body is no JSON"}]}\n')
        try:
            self.tell(200, answer(request))
        except OSError:
            self.tell(500, b'{"errors":[{"message":"the program has ended"}]}\n')

    def tell(self, status, body):
        self.send_response(status)
        self.send_header("content-type", "application/json")
        self.send_header("content-length", str(len(body)))
        self.end_headers()
        self.wfile.write(body)


ThreadingHTTPServer(("127.0.0.1", int(sys.argv[1])), Front).serve_forever()
