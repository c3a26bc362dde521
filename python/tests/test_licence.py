"""The licence: what is read, and every refusal in words."""
from __future__ import annotations

import unittest

from hocsimbur.portfolio import licence
from hocsimbur.portfolio.licence import Licensed, LicenceRefused

from .portfolios import LICENCE

HEAD = b"station,name,seasons\n"


class Read(unittest.TestCase):
    def test_the_example(self):
        self.assertEqual(LICENCE.stations[0], Licensed(101, "Ashgrove", (1, 2, 3, 4)))
        self.assertEqual(LICENCE.stations[1], Licensed(104, "Birch Hollow, east yard", (1, 2)))
        self.assertEqual([one.station for one in LICENCE.stations], [101, 104, 110, 118, 123, 131, 140, 152, 160, 171, 188, 204, 215])

    def test_seasons_as_the_core_takes_them(self):
        self.assertEqual([Licensed(1, "", seasons).mask for seasons in ((1,), (2,), (3,), (4,), (1, 3), (1, 2, 3, 4))], [1, 2, 4, 8, 5, 15])

    def test_what_spreadsheets_write(self):
        text = b"\xef\xbb\xbfstation,name,seasons\r\n\r\n 7 , North ,2  1\r\n,,\r\n"
        self.assertEqual(licence.read(text).stations, (Licensed(7, "North", (1, 2)),))

    def test_other_order_of_columns(self):
        self.assertEqual(licence.read(b"seasons,station,name\n4 1,7,\n").stations, (Licensed(7, "", (1, 4)),))

    def test_what_people_write(self):
        """Semicolons, tabs, quotes, other letters, old code pages, UTF-16 and empty columns."""
        wanted = (Licensed(7, "N\u00f6rd, A", (1, 2, 3, 4)), Licensed(8, "B", (1, 2)))
        for text in ("Station;Name;Seasons\n7;N\u00f6rd, A;1-4\n8;B;1,2\n", 'STATION,NAME,SEASONS\n7,"N\u00f6rd, A",all\n8.0,B,"1,2"\n',
                     "station\tname\tseasons\t\n7\tN\u00f6rd, A\t1 2 3 4\t\n8\tB\t1 2\t\n", "sep=;\nseasons;name;station\n1-4;N\u00f6rd, A;7\n1+2;B;8\n"):
            for encoding in ("utf-8", "utf-8-sig", "cp1252", "utf-16"):
                self.assertEqual(licence.read(text.encode(encoding)).stations, wanted, (text, encoding))

    def test_written_and_read_again(self):
        made = licence.of_cases([dict(station=9, season=2), dict(station=7, season=1), dict(station=9, season=1)], {9: 'A, "B"; C'})
        self.assertEqual(made.stations, (Licensed(9, 'A, "B"; C', (1, 2)), Licensed(7, "", (1,))))
        self.assertEqual(licence.read(licence.text(made).encode()), made)

    def test_wires(self):
        """A size of the catalogue or a cross-section in kcmil, both rounded down; none is a solid round of the diameter."""
        read = licence.read(b"station,name,seasons,wire\n7,A,1,4/0\n8,B,2,\n9,C,1 2,500 kcmil\n10,D,3,211 kcmil\n11,E,4,95 mm2\n")
        self.assertEqual([one.numbers for one in read.stations], [(7, 1, 211), (8, 2, 0), (9, 3, 500), (10, 4, 211), (11, 8, 184)])
        self.assertEqual(licence.wires(read)[0], "wire 4/0 is counted as 211 kcmil, its own cross-section rounded down")
        self.assertEqual(len(licence.wires(read)), 4)
        self.assertEqual(licence.read(licence.text(read).encode()), read)
        self.assertEqual(licence.wires(LICENCE), [])
        for wrong in ("5/0", "13.4", "2001 kcmil", "0 kcmil", "4", "95"):
            with self.assertRaises(LicenceRefused) as refused:
                licence.read(b"station,name,seasons,wire\n7,A,1,%s\n" % wrong.encode())
            self.assertEqual(str(refused.exception),
                             f"licence line 2, wire: '{wrong}' is no size of the catalogue; write for example 4/0, 250 kcmil or 95 mm2, "
                             "or the cross-section in whole kcmil, rounded down, as 211 kcmil (1..2000)")

    def test_no_line_end(self):
        self.assertEqual(licence.read(HEAD + b"7,A,1").stations, (Licensed(7, "A", (1,)),))

    def test_more_than_the_core_takes_at_once(self):
        lines = [b"%d,,1\n" % station for station in range(1, 3001)]
        self.assertEqual(len(licence.read(HEAD + b"".join(lines)).stations), 3000)

    def test_seasons_as_people_write_them(self):
        for text, seasons in (("1 2 4", (1, 2, 4)), ("1,2,4", (1, 2, 4)), ("1-4", (1, 2, 3, 4)), ("all", (1, 2, 3, 4)), ("ALL", (1, 2, 3, 4)),
                              ("2", (2,)), ("4;1", (1, 4)), ("1-2, 4", (1, 2, 4)), (" 3+1 ", (1, 3)), ("2\u20133", (2, 3))):
            self.assertEqual(licence.seasons(text), seasons, text)
        for text in ("0", "5", "4-1", "1-5", "a", "", " ", "1 1", "1-3 2", "12"):
            with self.assertRaises(ValueError, msg=text):
                licence.seasons(text)


class Refusals(unittest.TestCase):
    CASES = {
        b"": "licence: it is empty; its first line is station,name,seasons",
        b"\n \n": "licence: it is empty; its first line is station,name,seasons",
        HEAD: "licence: it names no station",
        b"station,name\n7,A\n": "licence line 1: the names are station,name; a licence has station,name,seasons and, if it is known, wire",
        b"station,name,season\n": "licence line 1: the names are station,name,season; a licence has station,name,seasons and, if it is known, wire",
        b"station,name,seasons,seasons\n": "licence line 1: the names are station,name,seasons,seasons; a licence has station,name,seasons and, if it is known, wire",
        HEAD + b"7,A\n": "licence line 2: 2 cells and not 3; a name with a comma stands in double quotes",
        HEAD + b"7,A,B,1 2\n": "licence line 2: 4 cells and not 3; a name with a comma stands in double quotes",
        HEAD + b"0,A,1\n": "licence line 2, station: '0' is not a number in 1..65535",
        HEAD + b"65536,A,1\n": "licence line 2, station: '65536' is not a number in 1..65535",
        HEAD + b"x,A,1\n": "licence line 2, station: 'x' is not a number in 1..65535",
        HEAD + b",A,1\n": "licence line 2, station: '' is not a number in 1..65535",
        HEAD + "\u0667,A,1\n".encode(): "licence line 2, station: '\u0667' is not a number in 1..65535",
        HEAD + b"7,A,1\n8,B,2\n7,C,3\n": "licence line 4, station: 7 stands in line 2 too",
        HEAD + b"7,A,\n": "licence line 2, seasons: none is named; write for example 1 2 3 4, 1-4 or all",
        HEAD + b"7,A,5\n": "licence line 2, seasons: '5' is not 1, 2, 3 or 4; write for example 1 2 4, 1-4 or all",
        HEAD + b"7,A,12\n": "licence line 2, seasons: '12' is not 1, 2, 3 or 4; write for example 1 2 4, 1-4 or all",
        HEAD + b"7,A,1 2 1\n": "licence line 2, seasons: '1 2 1' names a season twice",
        HEAD + b"7,A\x07B,1\n": "licence line 2, name: it has a character that cannot be printed",
        HEAD + b'7,"A,1\n': "licence: line 2: unexpected end of data",
    }

    def test_each(self):
        for text, said in self.CASES.items():
            with self.subTest(text), self.assertRaises(LicenceRefused) as refused:
                licence.read(text)
            self.assertEqual(str(refused.exception), said)


if __name__ == "__main__":
    unittest.main()
