"""Shows a folder to a browser in the same network, such as a phone's, until it is stopped."""
import functools
import http.server
import os
import socket

from refusals import FAILED, Refusal
from saying import answer

PAGE = "index.html"


class Quiet(http.server.SimpleHTTPRequestHandler):
    """The files of the folder alone; what is asked for isn't told."""

    def list_directory(self, path):
        self.send_error(404)

    def log_message(self, *_):
        pass


def address():
    """This machine's address in its network: the one from which others would be reached. Nothing is sent."""
    with socket.socket(socket.AF_INET, socket.SOCK_DGRAM) as there:
        try:
            there.connect(("192.0.2.1", 9))  # an address for examples (RFC 5737)
            return there.getsockname()[0]
        except OSError:
            return "127.0.0.1"


def server_of(folder, port=0):
    """A server of the folder; by the port 0 any that is free."""
    if not os.path.isfile(os.path.join(folder, PAGE)):
        raise Refusal(f"{folder} has no {PAGE}: name a folder that light made")
    try:
        return http.server.ThreadingHTTPServer(("", port), functools.partial(Quiet, directory=folder))
    except OSError as fault:
        raise Refusal(f"cannot serve {folder}: {fault.strerror or fault}", FAILED) from None


def serve(folder):
    """Serves the folder until Ctrl-C; the status."""
    with server_of(folder) as server:
        answer([f"open http://{address()}:{server.server_port}/ on a device in the same network; Ctrl-C ends it"])
        try:
            server.serve_forever()
        except KeyboardInterrupt:
            return 0
