"""The questions that C and Rust are asked, too, and the classes above them. Expected values are those
of c/cases.txt, and of the standard worked by hand."""

import os
import subprocess
import sys
import unittest
from fractions import Fraction
from pathlib import Path

HERE = Path(__file__).resolve().parent
sys.path[:0] = [str(HERE.parent), str(HERE)]

import cases  # noqa: E402
import hidreport as hid  # noqa: E402

CASES = HERE.parent.parent / "c" / "cases.txt"
QUESTIONS = 719
MOUSE = bytes.fromhex("05010902a1010901a10005091901290315002501950375018102950175058101"
                      "05010930093115 81257f750895028106c0c0".replace(" ", ""))


def refused(call, *arguments):
    """The refusal that a call ends with."""
    try:
        call(*arguments)
    except hid.HidReportError as error:
        return error
    raise AssertionError(f"{call} isn't refused")


class Cases(unittest.TestCase):
    def test_all(self):
        lines = CASES.read_text().splitlines()
        questions = [line for line in lines if not line.startswith("  ")]
        asked = [line for line in questions if line and not line.startswith("#")]
        self.assertEqual(len(asked), QUESTIONS)
        for wanted, got in zip(lines, cases.answers(questions)):
            self.assertEqual(wanted, got)

    def test_notices(self):
        """Another answer is noticed."""
        self.assertNotEqual(cases.answers(["usage-name 00010030"])[-1], "  Y")


class Classes(unittest.TestCase):
    def test_fields(self):
        device = hid.ReportDescriptor(MOUSE)
        report, = device.input_reports
        self.assertEqual((device.output_reports, device.feature_reports), ((), ()))
        self.assertEqual((report.report_id, report.size_in_bits, report.size_in_bytes), (None, 24, 3))
        self.assertEqual([field.id for field in report.fields], [0, 1, 2, 3, 4, 5])
        x = report.field_for(hid.Usage(1, 0x30))
        self.assertEqual((x.bits, x.kind, x.is_signed), (range(8, 16), hid.Kind.VARIABLE, True))
        self.assertEqual((x.logical_minimum, x.logical_maximum), (-127, 127))
        self.assertEqual((x.physical_minimum, x.unit, x.unit_exponent), (None, None, None))
        self.assertEqual((x.flags.is_relative, x.flags.wraps), (True, False))
        self.assertEqual([it.kind_name for it in x.collections], ["Application", "Physical"])
        self.assertEqual([it.usages[0].name for it in x.collections], ["Mouse", "Pointer"])
        self.assertEqual(report.fields[3].kind, hid.Kind.CONSTANT)
        self.assertEqual((report.fields[3].usages, report.fields[3].collections), ((), ()))
        self.assertIsNone(report.field_for(hid.Usage(1, 0x38)))
        twice, = hid.ReportDescriptor(bytes.fromhex("0501 0930 0930 7508 9502 8102")).input_reports
        self.assertEqual(twice.field_for(hid.Usage(1, 0x30)).id, 0)
        many, = hid.ReportDescriptor(bytes.fromhex("0509 1901 2946 7501 9546 8102")).input_reports
        self.assertEqual([field.usage.id for field in many.fields], list(range(1, 71)))

    def test_values(self):
        report, = hid.ReportDescriptor(MOUSE).input_reports
        data = bytearray.fromhex("0505fb")
        self.assertEqual(report.read(data), [1, 0, 1, 5, -5])
        self.assertEqual([(field.id, values) for field, values in report.values(data)],
                         [(0, [1]), (1, [0]), (2, [1]), (4, [5]), (5, [-5])])
        self.assertEqual(report.fields[4].extract(data), [5])
        self.assertEqual(report.read_available(data[:2]), [1, 0, 1, 5])
        self.assertIsInstance(refused(report.read, data[:2]), hid.OutOfBounds)
        self.assertIsInstance(refused(report.fields[4].extract_one, data, 1), hid.OutOfBounds)
        report.fields[4].insert_one(data, -128)
        self.assertEqual(data.hex(), "0580fb")
        for value in 128, -129, 2**63, 2**80, -2**80:
            self.assertIsInstance(refused(report.fields[4].insert_one, data, value), hid.DoesNotFit)
        self.assertIsInstance(refused(report.write, data, [0] * 4), hid.WrongCount)
        self.assertIsInstance(refused(report.fields[4].insert, data, []), hid.WrongCount)
        self.assertEqual(data.hex(), "0580fb")
        report.write(data, [0, 1, 0, 1, -1])
        self.assertEqual((data.hex(), report.blank().hex()), ("0201ff", "000000"))
        self.assertEqual(report.fields[4].normalized(127), Fraction(1))

    def test_ids(self):
        device = hid.ReportDescriptor(bytes.fromhex("0501 7508 9501 8505 0930 8102 8506 0931 8102"))
        self.assertEqual([report.report_id for report in device.input_reports], [5, 6])
        self.assertEqual(device.find_input_report(b"\x06\x2a").read(b"\x06\x2a"), [42])
        self.assertIsNone(device.find_input_report(b"\x07\x2a"))
        self.assertIsNone(device.find_input_report(b""))
        self.assertIsNone(device.find_output_report(b"\x05"))
        self.assertEqual(device.input_reports[1].blank().hex(), "0600")
        field = device.input_reports[1].fields[0]
        self.assertEqual(field.report_id, 6)
        zero, = hid.ReportDescriptor(bytes.fromhex("8500 0501 0930 7508 9501 8102")).input_reports
        self.assertEqual((zero.report_id, zero.fields[0].report_id), (0, 0))
        self.assertIsInstance(refused(field.extract, b"\x05\x2a"), hid.MismatchingReportId)

    def test_arrays(self):
        field, = hid.ReportDescriptor(
            bytes.fromhex("0507 1904 2907 1501 2504 7508 9503 8100")).input_reports[0].fields
        self.assertEqual((field.kind, field.value_count, field.is_usage_range),
                         (hid.Kind.ARRAY, 3, True))
        self.assertEqual(field.extract(b"\x01\x04\x00"), [1, 4, 0])
        self.assertEqual(field.usage_of(4), hid.Usage(7, 7))
        self.assertIsNone(field.usage_of(0))
        self.assertEqual(field.value_of(hid.Usage(7, 4)), 1)
        self.assertIsNone(field.value_of(hid.Usage(7, 8)))
        self.assertEqual((field.null_value, field.usage), (0, None))

    def test_refusals(self):
        error = refused(hid.ReportDescriptor, b"\x05\x01\xc0")
        self.assertEqual((type(error), error.offset, error.message),
                         (hid.InvalidData, 2, "Too many EndCollection"))
        self.assertIsInstance(error, ValueError)
        error = refused(hid.ReportDescriptor, MOUSE, hid.ParseOptions(limit=1))
        self.assertEqual((type(error), error.offset), (hid.BudgetExceeded, 4))
        error = refused(hid.ReportDescriptor, MOUSE, hid.ParseOptions(push=7))
        self.assertIsInstance(error, hid.UnknownOption)
        error = refused(hid.items, b"\x05")
        self.assertEqual((type(error), error.offset), (hid.InvalidData, 0))
        self.assertEqual(len(hid.ReportDescriptor(MOUSE, hid.ParseOptions(limit=None))
                             .input_reports), 1)

    def test_wholes(self):
        self.assertEqual([(it.offset, it.data.hex(), it.name) for it in hid.items(b"\x05\x01\xc0")],
                         [(0, "0501", "Usage Page"), (2, "c0", "End Collection")])
        self.assertEqual(hid.items(b"\x81\x02")[0].flag_words, "Data,Var,Abs,NoNull")
        self.assertEqual([it.offset for it in hid.front_items(b"\x05\x01\x05")], [0])
        self.assertEqual(hid.rebuild(bytes.fromhex("060100c4")).hex(), "0501")
        data, changes = hid.repair(bytes.fromhex("750895018300000001"))
        self.assertEqual(data.hex(), "750895018301000001")
        self.assertEqual(changes, [hid.Change(4, 5, 5, hid.Reason.NO_USAGE)])
        self.assertEqual(refused(hid.repair, b"\xc0").offset, 0)
        same = hid.ReportDescriptor(MOUSE)
        self.assertTrue(same.is_alike(hid.ReportDescriptor(hid.rebuild(MOUSE))))
        self.assertFalse(same.is_alike(hid.ReportDescriptor(MOUSE[:-2] + b"\x09\x38\x81\x02\xc0\xc0")))

    def test_names(self):
        self.assertEqual(hid.Usage.by_name("X"), hid.Usage(1, 0x30))
        self.assertEqual(hid.Usage.by_name("Button 3", page=9), hid.Usage(9, 3))
        self.assertIsNone(hid.Usage.by_name("No such name"))
        self.assertEqual((hid.Usage(1, 2).name, hid.Usage(1, 2).page_name),
                         ("Mouse", "Generic Desktop"))
        self.assertEqual((hid.page_by_name("Button"), hid.page_name(9)), (9, "Button"))
        self.assertIsNone(hid.Usage(0x7FFF, 1).name)


class Memory(unittest.TestCase):
    def test_refused(self):
        """Where there is little memory, what wants much is a MemoryError."""
        asked = ("import resource, hidreport as h; "
                 "resource.setrlimit(resource.RLIMIT_AS, (300 << 20, 300 << 20))\n"
                 "try: h.ReportDescriptor(bytes.fromhex('0501 0930 7508 97ffffff00 8102'), "
                 "h.ParseOptions(limit=None))\n"
                 "except MemoryError: print('refused')")
        done = subprocess.run([sys.executable, "-c", asked], capture_output=True, text=True,
                              env={**os.environ, "PYTHONPATH": str(HERE.parent)}, check=False)
        self.assertEqual(done.stdout, "refused\n", done.stderr)


if __name__ == "__main__":
    unittest.main()
