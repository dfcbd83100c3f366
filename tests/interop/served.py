"""A small HTTP server on a free port of loopback: /text at once, /slow after ten seconds, anything else is not found.

Arguments: the text to serve, and a file to write the port to once the server listens.
"""

import sys
import time
from http.server import BaseHTTPRequestHandler, ThreadingHTTPServer

TEXT, PORT_FILE = sys.argv[1:]


class Handler(BaseHTTPRequestHandler):
    def do_GET(self):
        if self.path == "/slow":
            time.sleep(10)
        found = self.path in ("/text", "/slow")
        body = TEXT.encode() if found else b"not here"
        self.send_response(200 if found else 404)
        self.send_header("Content-Type", "text/plain")
        self.send_header("Content-Length", str(len(body)))
        self.end_headers()
        self.wfile.write(body)


server = ThreadingHTTPServer(("127.0.0.1", 0), Handler)
with open(PORT_FILE, "w", encoding="ascii") as file:
    file.write(f"{server.server_address[1]}\n")
server.serve_forever()
