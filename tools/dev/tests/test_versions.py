"""Releases, their data versions and pack formats, as the Minecraft Wiki has them ("Data version", "Pack format")."""
import unittest

import paths  # it makes the modules of tools/user known

import versions

# The first and the last release of each pack format.
FORMATS = {
    5: ("1.16", "1.16.1"), 6: ("1.16.2", "1.16.5"), 7: ("1.17", "1.17.1"), 8: ("1.18", "1.18.1"),
    9: ("1.18.2", "1.18.2"), 10: ("1.19", "1.19.3"), 12: ("1.19.4", "1.19.4"), 15: ("1.20", "1.20.1"), 18: ("1.20.2", "1.20.2"),
    26: ("1.20.3", "1.20.4"), 41: ("1.20.5", "1.20.6"), 48: ("1.21", "1.21.1"), 57: ("1.21.2", "1.21.3"),
    61: ("1.21.4", "1.21.4"), 71: ("1.21.5", "1.21.5"), 80: ("1.21.6", "1.21.6"), 81: ("1.21.7", "1.21.8"),
    88: ("1.21.9", "1.21.10"), 94: ("1.21.11", "1.21.11"),
}
DATA = {"1.16": 2566, "1.16.5": 2586, "1.17.1": 2730, "1.18": 2860, "1.19.4": 3337, "1.20.4": 3700, "1.21.4": 4189}


class Releases(unittest.TestCase):
    def test_each_pack_format_is_that_of_its_releases(self):
        for pack_format, ends in FORMATS.items():
            found = [release.name for release in versions.RELEASES if release.pack_format == pack_format]
            self.assertEqual((found[0], found[-1]), ends)
        self.assertEqual({release.pack_format for release in versions.RELEASES}, set(FORMATS))

    def test_data_versions(self):
        for name, data_version in DATA.items():
            self.assertEqual(versions.release(name).data_version, data_version)

    def test_they_ascend(self):
        numbers = [release.data_version for release in versions.RELEASES]
        self.assertEqual(numbers, sorted(set(numbers)))

    def test_a_snapshot_counts_as_the_release_before_it(self):
        for data_version, name in ((2566, "1.16"), (2859, "1.17.1"), (2860, "1.18"), (2861, "1.18"), (9999, "1.21.11")):
            self.assertEqual(versions.release_of(data_version).name, name)

    def test_earlier_and_unknown_versions_have_none(self):
        self.assertIsNone(versions.release_of(2565))
        self.assertIsNone(versions.release_of(None))


class Names(unittest.TestCase):
    def test_a_block_is_named_as_the_version_names_it(self):
        for name in ("minecraft:grass", "minecraft:short_grass"):
            self.assertEqual(versions.name_in(3697, name), "minecraft:grass")
            self.assertEqual(versions.name_in(3698, name), "minecraft:short_grass")
        self.assertEqual(versions.name_in(2586, "minecraft:dirt_path"), "minecraft:grass_path")
        self.assertEqual(versions.name_in(2724, "minecraft:grass_path"), "minecraft:dirt_path")
        self.assertEqual(versions.name_in(2724, "minecraft:stone"), "minecraft:stone")


if __name__ == "__main__":
    unittest.main()
