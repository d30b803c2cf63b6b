"""Two people and their folders at one host, with a `sync` each that is killed and started again, as the host is."""
from __future__ import annotations

import unittest

from support import InFolder
from syncing import Host, Play


class PeopleTest(InFolder):
    def test_nothing_is_lost_and_all_agree(self) -> None:
        host = Host()
        self.addCleanup(host.end)
        play = Play(self.folder, host.port, seed=61499)
        self.addCleanup(play.end)
        play.start()
        play.type(seconds=15, pause=0.3, host=host, host_pause=6)
        with host.session() as session:
            self.assertTrue(play.agree(session))
        play.end()
        self.assertEqual(play.lost(), [])
        self.assertGreater(play.counted()["committed"], 10)


if __name__ == "__main__":
    unittest.main()
