"""A folder that is shown to a browser in the same network."""
import os
import tempfile
import threading
import unittest
import urllib.error
import urllib.request

import paths
import serving
from refusals import Refusal


class Serving(unittest.TestCase):
    def setUp(self):
        room = tempfile.TemporaryDirectory()
        self.addCleanup(room.cleanup)
        self.folder = os.path.join(room.name, "hall-torches")
        os.makedirs(os.path.join(self.folder, "pieces"))
        for name in ("index.html", "pieces/page.html", "../secret"):
            with open(os.path.join(self.folder, name), "w", encoding="utf-8") as file:
                file.write(name)

    def test_the_files_of_the_folder_and_no_others(self):
        with serving.server_of(self.folder) as server:
            thread = threading.Thread(target=server.serve_forever)
            thread.start()

            def read(path):
                try:
                    with urllib.request.urlopen(f"http://127.0.0.1:{server.server_port}/{path}") as answer:
                        return answer.read().decode()
                except urllib.error.HTTPError as fault:
                    with fault:
                        return fault.code

            try:
                self.assertEqual([read(path) for path in ("", "pieces/page.html")], ["index.html", "pieces/page.html"])
                for path in ("../secret", "%2e%2e/secret", "pieces/../../secret", "pieces/", "no"):
                    self.assertEqual(read(path), 404, path)
            finally:
                server.shutdown()
                thread.join()

    def test_a_folder_without_a_page(self):
        with self.assertRaisesRegex(Refusal, "has no index.html: name a folder that light made"):
            serving.server_of(os.path.dirname(self.folder))

    def test_an_address_is_four_numbers(self):
        self.assertRegex(serving.address(), r"\A\d+\.\d+\.\d+\.\d+\Z")


if __name__ == "__main__":
    unittest.main()
