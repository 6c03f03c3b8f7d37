"""Values: hex digits in every allowed shape, numbers, files; and each way in which they are wrong."""
import support
from trouble import Trouble, plain
from values import bytes_of, number_of


class Values(support.DeskTest):
    def test_shapes_of_hex(self):
        for text in ("0aFf80", "0a ff 80", "0A:FF:80", " 0aff 80 ", "0a\tff\n80", "0a::ff : 80"):
            with self.subTest(text):
                self.assertEqual(bytes_of(text), b"\x0a\xff\x80")

    def test_no_bytes(self):
        for text in ("-", " - "):
            with self.subTest(text):
                self.assertEqual(bytes_of(text), b"")

    def refuses(self, sentence, reading, *given):
        with self.subTest(given), self.assertRaises(Trouble) as caught:
            reading(*given)
        self.assertIn(sentence, str(caught.exception))

    def test_wrong_hex(self):
        self.refuses("3 hex digits from character 1 on, an odd number", bytes_of, "abc")
        self.refuses("1 hex digit alone at character 4; two make a byte", bytes_of, "ab c")
        self.refuses("1 hex digit alone at character 1", bytes_of, "1 2")
        self.refuses("'g', character 3 of the value, is no hex digit", bytes_of, "abg")
        self.refuses("'x', character 2 of the value", bytes_of, "0x12")
        self.refuses("'-', character 6 of the value", bytes_of, "ab cd-ef")
        self.refuses("'\\xa0', character 3", bytes_of, "ab\xa0cd")
        self.refuses("'٢', character 1", bytes_of, "٢٢")
        self.refuses("no hex digits; '-' stands for no bytes", bytes_of, ":")
        for text in ("", " "):
            self.refuses("the value is empty; '-' stands for no bytes", bytes_of, text)

    def test_longest(self):
        self.assertEqual(len(bytes_of("ab" * 65535)), 65535)
        self.refuses("65,536 bytes; a section of a job has 65,535 at most", bytes_of, "ab" * 65536)

    def test_file(self):
        self.write("some", b"\x00\xff12")
        self.assertEqual(bytes_of("@some", self.folder), b"\x00\xff12")
        self.write("most", bytes(65535))
        self.assertEqual(bytes_of("@most", self.folder), bytes(65535))
        self.write("more", bytes(65536))
        self.refuses("has more than 65,535 bytes", bytes_of, "@more", self.folder)
        self.refuses("nosuch can't be read: No such file", bytes_of, "@nosuch", self.folder)
        self.refuses("can't be read: Is a directory", bytes_of, "@.", self.folder)
        self.refuses("without the name", bytes_of, "@")
        self.refuses("'s', character 1 of the value, is no hex digit; a file of that name is there, whose bytes are @some",
                     bytes_of, "some", self.folder)

    def test_number(self):
        self.assertEqual([number_of(text, 255) for text in ("0", "2", "255", "007")], [0, 2, 255, 7])
        for text in ("256", "-1", "+1", "1.0", "", " 1", "1_0", "0x1", "two", "²", "٢", "9" * 5000):
            self.refuses("is not a number from 0 to 255", number_of, text, 255)

    def test_plain(self):
        self.assertEqual(plain("a b\x1b[1m\udcff é"), "a b\\x1b[1m\\udcff é")
