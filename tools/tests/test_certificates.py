"""Certificates as the tools see them."""
import unittest
from fractions import Fraction

from dolthrew_view.certificates import Plan, read_certificate
from dolthrew_view.fault import Fault

# The certificate at the head of docs/CERTIFICATE.md, but for its tree.
TEXT = (b'{"branches":[[2,[0,1],null]],"budget":200000,"claim":"capacity","least":[1,2],'
        b'"plan":{"cycle":60,"greens":[25,26],"starts":[0,30]},"version":1}')


class CertificatesTest(unittest.TestCase):
    def test_all_parts(self):
        certificate = read_certificate(TEXT, "file")
        self.assertEqual(certificate.branches, ((2, (0, 1), None),))
        self.assertEqual((certificate.budget, certificate.claim), (200000, "capacity"))
        self.assertEqual(certificate.least, Fraction(1, 2))
        self.assertEqual(certificate.plan, Plan(60, (0, 30), (25, 26)))

    def test_without_a_plan(self):
        start, end = TEXT.index(b'{"cycle"'), TEXT.index(b',"version"')
        self.assertIsNone(read_certificate(TEXT[:start] + b"null" + TEXT[end:], "file").plan)

    def test_what_is_no_certificate_is_one_fault(self):
        for content in (b"", b"\xff", b"[]", b"{}", b"3", b"[" * 100000, TEXT.replace(b"capacity", b"best"),
                        TEXT.replace(b"[1,2]", b"[1,0]"), TEXT.replace(b"[1,2]", b"[1]"),
                        TEXT.replace(b"starts", b"begins"),
                        TEXT.replace(b'"branches":[[2,[0,1],null]]', b'"branches":3')):
            with self.assertRaisesRegex(Fault, "^file: no certificate$"):
                read_certificate(content, "file")


if __name__ == "__main__":
    unittest.main()
