"""host/layout.py on small modules: what means the same with pointers of four bytes passes; each way in which it does not is reported."""

import sys
import unittest
from pathlib import Path

sys.path.insert(0, str(Path(__file__).parents[2] / "host"))

import apart  # noqa: E402
import layout  # noqa: E402

HEAD = """; ModuleID = 'small'
source_filename = "rattle"
target datalayout = "e-m:e-i64:64-S128"
target triple = "x86_64-unknown-linux-gnu"

"""
TAIL = """
declare void @llvm.memmove.p0.p0.i64(ptr writeonly captures(none), ptr readonly captures(none), i64, i1 immarg) #1
attributes #0 = { nounwind }
"""


def module(*functions):
    """The text of a module; a function is its head and its instructions."""
    bodies = [head + " #0 {\nstart:\n" + "".join(f"  {line}\n" for line in lines) + "}\n" for head, *lines in functions]
    return HEAD + "\n".join(bodies) + TAIL


def reports(*functions):
    return layout.check(module(*functions))[1]


SLOT = ("%s = alloca [16 x i8], align 8", "store ptr %a, ptr %s, align 8", "%l = getelementptr i8, ptr %s, i64 8",
        "store i64 3, ptr %l, align 8")
READ = ("%p = load ptr, ptr %s, align 8, !noundef !2", "%n = load i64, ptr %l, align 8")


class Layout(unittest.TestCase):
    def reported(self, word, *functions):
        found = reports(*functions)
        self.assertTrue(any(word in one for one in found), found)

    def test_a_slice_passes(self):
        said, found = layout.check(module(("define i64 @f(ptr noundef %a)", *SLOT, *READ, "ret i64 %n")))
        self.assertEqual(found, [])
        self.assertIn("1 functions, 7 instructions, 1 allocas, 0 of one pointer; 1 slots hold pointers", said)

    def test_a_switch_passes(self):
        self.assertEqual(reports(("define void @f(i8 noundef %a)", "switch i8 %a, label %no [", "  i8 0, label %one", "]", "ret void")), [])

    def test_a_pointer_read_as_a_number(self):
        self.reported("a pointer at 0 and i64 at 0", ("define void @f(ptr noundef %a)", *SLOT, "%n = load i64, ptr %s, align 8",
                                                      "ret void"))

    def test_half_of_a_pointer_read(self):
        self.reported("a pointer at 0 and i32 at 4", ("define void @f(ptr noundef %a)", *SLOT, "%h = getelementptr i8, ptr %s, i64 4",
                                                      "%n = load i32, ptr %h, align 4", "ret void"))

    def test_a_number_written_over_a_pointer(self):
        self.reported("a pointer at 0 and i8 at 7", ("define void @f(ptr noundef %a)", *SLOT, "%h = getelementptr i8, ptr %s, i64 7",
                                                     "store i8 1, ptr %h, align 1", "ret void"))

    def test_through_a_call(self):
        self.reported("a pointer at 0 and i64 at 0", ("define void @f(ptr noundef %a)", *SLOT, "call void @g(ptr noundef %s)", "ret void"),
                      ("define internal void @g(ptr noundef %b)", "%n = load i64, ptr %b, align 8", "ret void"))

    def test_through_a_copy(self):
        copy = "call void @llvm.memmove.p0.p0.i64(ptr align 8 %t, ptr align 8 %s, i64 16, i1 false)"
        self.reported("a pointer at 0 and i64 at 0", ("define void @f(ptr noundef %a)", *SLOT, "%t = alloca [16 x i8], align 8", copy,
                                                      "%n = load i64, ptr %t, align 8", "ret void"))
        short = copy.replace("i64 16", "i64 0")
        self.assertEqual(reports(("define void @f(ptr noundef %a)", *SLOT, "%t = alloca [16 x i8], align 8", short,
                                  "%n = load i64, ptr %t, align 8", "ret void")), [])

    def test_through_memory(self):
        self.reported("a pointer at 0 and i64 at 0", (
            "define void @f(ptr noundef %a)", *SLOT, "%k = alloca [8 x i8], align 8", "store ptr %s, ptr %k, align 8",
            "%q = load ptr, ptr %k, align 8", "%n = load i64, ptr %q, align 8", "ret void"))

    def test_at_an_unknown_offset(self):
        self.reported("not known", ("define void @f(ptr noundef %a, i64 noundef %i)", *SLOT, "%h = getelementptr i8, ptr %s, i64 %i",
                                    "%n = load i64, ptr %h, align 8", "ret void"))

    def test_one_pointer(self):
        one = "%p = alloca ptr, align 8"
        for word, *lines in (("as a number", "%n = load i64, ptr %p, align 8"), ("as a number", "store i32 1, ptr %p, align 4"),
                             ("inside an alloca ptr", "%h = getelementptr i8, ptr %p, i64 4"),
                             ("is stored", "%q = alloca ptr, align 8", "store ptr %p, ptr %q, align 8"),
                             ("handed on", "call void @llvm.memmove.p0.p0.i64(ptr %a, ptr %p, i64 8, i1 false)")):
            self.reported(word, ("define void @f(ptr noundef %a)", one, *lines, "ret void"))

    def test_a_slot_filled_with_zeros_passes(self):
        zeros = "call void @llvm.memset.p0.i64(ptr %s, i8 0, i64 16, i1 false)"
        self.assertEqual(reports(("define void @f(ptr noundef %a)", *SLOT, zeros, "ret void")), [])

    def test_a_part_of_a_pointer_filled_with_zeros(self):
        self.reported("a pointer at 0 and -4 at 0", ("define void @f(ptr noundef %a)", *SLOT,
                                                    "call void @llvm.memset.p0.i64(ptr %s, i8 0, i64 4, i1 false)", "ret void"))

    def test_a_pointer_filled_with_other_bytes(self):
        self.reported("a pointer at 0 and 16 at 0", ("define void @f(ptr noundef %a)", *SLOT,
                                                    "call void @llvm.memset.p0.i64(ptr %s, i8 1, i64 16, i1 false)", "ret void"))

    def test_a_pair_of_numbers(self):
        pair = ("%p = load { i8, i64 }, ptr %s, align 8", "%n = extractvalue { i8, i64 } %p, 1", "ret { i8, i64 } %p")
        self.assertEqual(reports(("define { i8, i64 } @f(i64 noundef %a)", "%s = alloca [16 x i8], align 8", *pair)), [])
        self.reported("a pointer at 0 and i8 at 0", ("define { i8, i64 } @f(ptr noundef %a)", *SLOT, *pair))
        self.reported("i64 at 8 of 15 bytes", ("define { i8, i64 } @f(i64 noundef %a)", "%s = alloca [15 x i8], align 8", *pair))

    def test_constant_bytes(self):
        bytes_of = '@static.0 = private unnamed_addr constant [16 x i8] c"' + "\\00" * 16 + '", align 1\n'
        kept = ("define void @f(ptr noundef %a)", "%k = alloca [8 x i8], align 8", "store ptr @static.0, ptr %k, align 8",
                "%q = load ptr, ptr %k, align 8")
        self.assertEqual(layout.check(module((*kept, "%n = load i64, ptr %q, align 8", "ret void")).replace(HEAD, HEAD + bytes_of))[1], [])
        found = layout.check(module((*kept, "%n = load ptr, ptr %q, align 8", "ret void")).replace(HEAD, HEAD + bytes_of))[1]
        self.assertTrue(any("a pointer at 0 and 16 at 0" in one for one in found), found)

    def test_a_test_for_null_passes(self):
        self.assertEqual(reports(("define i1 @f(ptr noundef %a)", "%n = icmp eq ptr %a, null", "ret i1 %n")), [])

    def test_slices_handed_on(self):
        both = ("define { ptr, i64 } @g(ptr noundef %a)", *SLOT, "%v = load { ptr, i64 }, ptr %s, align 8", "ret { ptr, i64 } %v")
        call = ("%v = call { ptr, i64 } @g(ptr %a)", "%p = extractvalue { ptr, i64 } %v, 0", "%n = extractvalue { ptr, i64 } %v, 1")
        self.assertEqual(reports(both, ("define i64 @f(ptr noundef %a)", *call, "%m = load i64, ptr %p, align 8", "ret i64 %n")), [])
        lent = ("define i64 @f(ptr noundef %a)", "%k = alloca [8 x i8], align 8", "store i64 3, ptr %k, align 8",
                "%v = call { ptr, i64 } @g(ptr %k)", "%p = extractvalue { ptr, i64 } %v, 0", "%m = load ptr, ptr %p, align 8", "ret i64 3")
        self.reported("a pointer at 0 and i64 at 0", both, lent)

    def test_a_pointer_that_may_be_missing(self):
        slot = ("%s = alloca [16 x i8], align 8", "store i8 1, ptr %s, align 1", "%l = getelementptr i8, ptr %s, i64 8",
                "store ptr %a, ptr %l, align 8", "%v = load { i8, ptr }, ptr %s, align 8")
        used = ("%b = extractvalue { i8, ptr } %v, 0", "%p = extractvalue { i8, ptr } %v, 1")
        text = module(("define void @f(ptr noundef %a)", *slot, *used, "%n = load i64, ptr %p, align 8", "ret void"))
        self.assertTrue(any("an unknown form" in one for one in layout.check(text)[1]))
        self.assertEqual(layout.check(apart.apart(text))[1], [])
        again = module(("define void @f(ptr noundef %a)", "%z = load i64, ptr %a, align 8", *slot, *used, "%n = load ptr, ptr %p, align 8", "ret void"))
        self.assertTrue(any("a pointer at 0 and i64 at 0" in one for one in layout.check(apart.apart(again))[1]))
        self.reported("an alloca ptr handed on by its place", (
            "define void @f()", "%s = alloca ptr, align 8", "%h = insertvalue { i8, ptr } poison, i8 1, 0",
            "%g = insertvalue { i8, ptr } %h, ptr %s, 1", "%p = extractvalue { i8, ptr } %g, 1", "store i64 0, ptr %p, align 8", "ret void"))

    def test_the_copy_of_the_library(self):
        head = 'define internal void @"core::ptr::copy_drop::copy_bits::<i8>"(ptr noundef %a0, ptr noundef %a1, i64 noundef %a2)'
        test = ("%s = alloca i64, align 8", "%n = mul i64 %a2, 1", "%d = ptrtoaddr ptr %a1 to i64", "%f = ptrtoaddr ptr %a0 to i64",
                "%g = sub i64 %d, %f", "%h = icmp ult i64 %g, %n", "br i1 %h, label %inside.1, label %apart.2")
        once = "\napart.2:    ; preds = %start\n  call void @llvm.memmove.p0.p0.i64(ptr %a1, ptr %a0, i64 %n, i1 false)\n  ret void\n"
        loop = "\ninside.1:    ; preds = %start\n  store i64 0, ptr %s, align 8\n  ret void\n}"
        text = module((head, *test)).replace("label %apart.2\n}", "label %apart.2\n" + once + loop)
        found = layout.check(text)[1]
        self.assertTrue(any("an unknown form" in one for one in found) and any("a copy of no fixed length" in one for one in found), found)
        by_its_loop = apart.apart(text)
        self.assertEqual(by_its_loop, text.replace("\n".join(f"  {line}" for line in test[2:]) + "\n" + once, "  br label %inside.1\n"))
        self.assertEqual(layout.check(by_its_loop)[1], [])
        # another function, or a copy the other way round, is left as it is
        for other in (text.replace("copy_bits", "copy"), text.replace("(ptr %a1, ptr %a0,", "(ptr %a0, ptr %a1,")):
            self.assertEqual(apart.apart(other), other)
        for line in ("%x = ptrtoaddr ptr %a to i64", "call void @llvm.memmove.p0.p0.i64(ptr %a, ptr %b, i64 %n, i1 false)"):
            self.assertNotEqual(reports(("define void @f(ptr noundef %a, ptr noundef %b, i64 noundef %n)", line, "ret void")), [], line)

    def test_past_the_end(self):
        self.reported("i64 at 16 of 16 bytes", ("define void @f(ptr noundef %a)", *SLOT, "%h = getelementptr i8, ptr %s, i64 16",
                                                "%n = load i64, ptr %h, align 8", "ret void"))

    def test_forms_that_are_not_known(self):
        for line in ("%n = ptrtoint ptr %a to i64", "%c = icmp eq ptr %a, %a", "%n = load volatile i64, ptr %a, align 8",
                     "%n = load i128, ptr %a, align 8", "%p = inttoptr i64 8 to ptr",
                     "%n = load atomic i64, ptr %a seq_cst, align 8", "%h = getelementptr i64, ptr %a, i64 1",
                     "%n = select i1 true, ptr %a, ptr %a", "%n = load <2 x i64>, ptr %a, align 8", "%n = call i64 %a(ptr %a)",
                     "%s = alloca {ptr, i64}, align 8", "%n = phi ptr [ %a, %start ]", "call void @g(ptr noundef %a)",
                     "call void @llvm.memmove.p0.p0.i64(ptr %a, ptr %a, i64 %n, i1 false)"):
            self.assertNotEqual(reports(("define void @f(ptr noundef %a)", line, "ret void")), [], line)
        for text in ("@g = global i64 0\n", "define hidden void @f(ptr noundef %a) #0 {\n}\n", "declare void @abort()\n",
                     "%s = type { ptr, i64 }\n"):
            self.assertNotEqual(layout.check(HEAD + text)[1], [], text)


if __name__ == "__main__":
    unittest.main()
