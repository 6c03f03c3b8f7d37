"""A job's bytes as the document lays them out, and what is no job."""
import support
from jobs import Job, NoJob, job_of, why_none


class Jobs(support.DeskTest):
    def test_layout(self):
        job = Job(1, 0, b"", b"", b"", b"")
        self.assertEqual(job.laid_out().hex(), "01000000000000000000")
        job = Job(3, 1, b"K", b"NO", b"HEA", bytes(300))
        self.assertEqual(job.laid_out(), b"\x03\x01\x00\x01K\x00\x02NO\x00\x03HEA\x01\x2c" + bytes(300))

    def test_read_back(self):
        for job in (Job(0, 0, b"", b"", b"", b""), Job(255, 1, b"k", b"n", b"h" * 256, b"b" * 65535)):
            self.assertEqual(job_of(job.laid_out()), job)

    def test_no_job(self):
        for data, reason in (
            ("", "before scheme and direction"),
            ("01", "before scheme and direction"),
            ("0102" + "0000" * 4, "direction byte is 2"),
            ("0100", "before the key's two-byte count"),
            ("0100" + "00", "before the key's two-byte count"),
            ("0100" + "0000" * 3, "before the body's two-byte count"),
            ("0100" + "0000" + "0100aabb", "the nonce's count says 256, with 2 bytes behind it"),
            ("0100" + "0002" + "ab", "the key's count says 2, with 1 byte behind it"),
            ("0100" + "0000" * 4 + "ab", "1 byte left over behind the body"),
            ("0100" + "0000" * 4 + "abcd", "2 bytes left over behind the body"),
        ):
            with self.subTest(data), self.assertRaises(NoJob) as caught:
                job_of(bytes.fromhex(data))
            self.assertIn(reason, str(caught.exception))

    def test_longest(self):
        self.assertIsNone(why_none(Job(2, 0, b"", b"", b"", bytes(16374)).laid_out()))
        self.assertEqual(why_none(Job(2, 0, b"", b"", b"", bytes(16375)).laid_out()), "it has 16,385 bytes, and 16,384 is the most")
        self.assertIn("direction", why_none(b"\x01\x02"))
