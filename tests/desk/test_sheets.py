"""The sheet parser: what it takes, and each refusal with its line."""
import support
from jobs import Job
from sheets import read_sheet, sheet_of
from support import SHEET
from trouble import Trouble

SMALL = "scheme 1\nopen\nkey 01\nnonce 02\n"
REST = "header -\nsealed -\n"


class Sheets(support.DeskTest):
    def test_whole(self):
        sheet = sheet_of("s", "# One.\n#Two.\n\n" + SMALL + "# not shown\nheader 03:04\nsealed 05 06\nexpect 0\noutput 07\n")
        self.assertEqual(sheet.story, ["One.", "Two."])
        self.assertEqual(sheet.job, Job(1, 1, b"\1", b"\2", b"\3\4", b"\5\6"))
        self.assertEqual((sheet.expect, sheet.output), (0, b"\7"))

    def test_nothing_expected(self):
        sheet = sheet_of("s", SMALL + REST)
        self.assertEqual(sheet, ([], Job(1, 1, b"\1", b"\2", b"", b""), None, None))

    def test_any_order_and_line_ends(self):
        sheet = sheet_of("s", "nonce -\r\n  key\t-  \r\nseal\r\nbody 24\r\nheader -\r\nscheme 255\r\nexpect 9")
        self.assertEqual(sheet, ([], Job(255, 0, b"", b"", b"", b"\x24"), 9, None))

    def refuses(self, sentence, text):
        with self.subTest(text[-30:]), self.assertRaises(Trouble) as caught:
            sheet_of("a.sheet", text)
        self.assertIn(sentence, str(caught.exception))

    def test_words(self):
        self.refuses("a.sheet, line 5: 'keys' is not a word of a sheet; they are scheme, seal", SMALL + "keys 01")
        self.refuses("a.sheet, line 5: 'Key' is not a word", SMALL + "Key 01")
        self.refuses("a.sheet, line 6: a second 'key'", SMALL + "\nkey 01")
        self.refuses("a.sheet, line 5: a second 'open'", SMALL + "open")
        self.refuses("a.sheet, line 5: a sheet is either 'seal' or 'open'", SMALL + "seal")
        self.refuses("a.sheet, line 5: 'seal' stands alone", SMALL + "seal 1")
        self.refuses("a.sheet, line 5: 'header' has no value", SMALL + "header ")

    def test_missing(self):
        for word in ("scheme 1", "key 01", "nonce 02"):
            self.refuses(f"a.sheet: no line '{word.split()[0]}'", (SMALL + REST).replace(word, ""))
        self.refuses("a.sheet: no line 'header'; `header -` stands for no bytes", SMALL + "sealed 00\n")
        self.refuses("a.sheet: no line 'sealed'; `sealed -` stands for no bytes", SMALL + "header 00\n")
        self.refuses("a.sheet: no line 'body'; `body -` stands for no bytes", SMALL.replace("open", "seal") + "header 00\n")
        self.refuses("a.sheet: neither a line 'seal' nor a line 'open'", SMALL.replace("open", ""))
        self.refuses("a.sheet: neither", "")

    def test_values(self):
        self.refuses("a.sheet, line 5: header: 'z', character 3 of the value", SMALL + "header abz")
        self.refuses("a.sheet, line 5: header: 1 hex digit alone", SMALL + "header a")
        self.refuses("a.sheet, line 5: header: '#', character 4", SMALL + "header ab # no comment here")
        self.refuses("a.sheet, line 1: scheme: '256' is not a number", SMALL.replace("scheme 1", "scheme 256"))
        self.refuses("a.sheet, line 5: header: nosuch can't be read", SMALL + "header @nosuch")
        self.refuses("a.sheet, line 5: header: a sheet does not read standard input; a file of that name is @./-", SMALL + "header @-")

    def test_last_section(self):
        self.refuses("a.sheet, line 5: body: a sheet with 'open' has 'sealed' in its place", SMALL + "body 01")
        self.refuses("a.sheet, line 5: sealed: a sheet with 'seal' has 'body'", SMALL.replace("open", "seal") + "sealed 01")

    def test_expected(self):
        self.assertEqual([sheet_of("s", f"{SMALL}{REST}expect {number}").expect for number in range(10)], list(range(10)))
        self.refuses("a.sheet, line 5: expect: '11' is not a number from 0 to 10", SMALL + "expect 11\n" + REST)
        self.refuses("a.sheet, line 5: expect: 'no' is not a number", SMALL + "expect no\n" + REST)
        self.refuses("a.sheet, line 6: output: only with 'expect 0'", SMALL + "expect 6\noutput 01\n" + REST)
        self.refuses("a.sheet, line 5: output: only with 'expect 0'", SMALL + "output 01\n" + REST)

    def test_not_shown(self):
        self.refuses("a.sheet, line 1: a character that can't be shown, '\\x1b'; a raw job's name ends in .job", "# \x1b[2J\n" + SMALL)

    def test_file_beside_the_sheet(self):
        self.write("header.bin", b"\x80")
        self.write("-", b"\x81")
        self.write("a.sheet", SMALL + "header @header.bin\nsealed @./-\n")
        self.assertEqual(read_sheet(self.path("a.sheet")).job[4:], (b"\x80", b"\x81"))

    def test_files(self):
        self.write("mark.sheet", b"\xef\xbb\xbf" + SHEET.encode())
        self.assertEqual(read_sheet(self.path("mark.sheet")).story, ["A story."])
        self.write("bytes.sheet", b"\xff\xfe")
        self.write("long.sheet", b"#" * (4 * 1024 * 1024 + 1))
        for name, sentence in (("bytes", "is not text in UTF-8"), ("long", "has more than"), ("none", "No such file")):
            with self.subTest(name), self.assertRaisesRegex(Trouble, sentence):
                read_sheet(self.path(name + ".sheet"))
