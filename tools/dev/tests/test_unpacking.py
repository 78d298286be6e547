"""What the game and other programs pack."""
import gzip
import unittest
import zlib

import paths
import nbt_writer
import unpacking
from refusals import Refusal


class Members(unittest.TestCase):
    def test_a_file_of_several_members_is_read_whole(self):
        data = gzip.compress(b"one ") + gzip.compress(b"") + gzip.compress(b"two")
        self.assertEqual(unpacking.plain(data), b"one two")
        self.assertEqual(unpacking.plain(data + b"\0\0\0"), b"one two")

    def test_a_second_member_that_is_cut_off_or_damaged(self):
        data = gzip.compress(b"one ") + gzip.compress(b"two" * 99)
        with self.assertRaisesRegex(Refusal, "cut off"):
            unpacking.plain(data[:-9])
        with self.assertRaisesRegex(Refusal, "damaged"):
            unpacking.plain(data[:-6] + b"\0\0" + data[-4:])

    def test_members_have_one_limit_together(self):
        half = gzip.compress(bytes(unpacking.MOST // 2 + 1), 1)
        with self.assertRaisesRegex(Refusal, "unpacks to more than 67,108,864 bytes"):
            unpacking.plain(half + half)


class Packing(unittest.TestCase):
    def test_files_are_packed_at_level_6(self):
        data = bytes(range(256)) * 40 + b"a cave" * 999
        stream = zlib.compressobj(6, zlib.DEFLATED, -15)
        self.assertEqual(nbt_writer.zipped(data)[10:-8], stream.compress(data) + stream.flush())
        self.assertEqual(gzip.decompress(nbt_writer.zipped(data)), data)


if __name__ == "__main__":
    unittest.main()
