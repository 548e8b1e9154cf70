"""Holds the structs, constants and calls of the module to C's headers, by the compiler `cc`."""
import ctypes
import os
import pathlib
import re
import shutil
import subprocess
import unittest

from cupdaisy import kernel, library, records

INCLUDE = pathlib.Path(os.environ.get("CUPDAISY_INCLUDE_DIR") or pathlib.Path(__file__).resolve().parents[2] / "include")
# The structs by C's names.
STRUCTS = {
    "struct v4l2_ctrl_h264_sps": kernel.Sps, "struct v4l2_ctrl_h264_pps": kernel.Pps,
    "struct v4l2_ctrl_h264_scaling_matrix": kernel.ScalingMatrix, "struct v4l2_h264_weight_factors": kernel.WeightFactors,
    "struct v4l2_ctrl_h264_pred_weights": kernel.PredWeights, "struct v4l2_h264_reference": kernel.Reference,
    "struct v4l2_ctrl_h264_slice_params": kernel.SliceParams, "struct v4l2_h264_dpb_entry": kernel.DpbEntry,
    "struct v4l2_ctrl_h264_decode_params": kernel.DecodeParams, "cupdaisy_session": records.Handle,
    "cupdaisy_receipt": records.Receipt, "cupdaisy_group_receipt": records.GroupReceipt,
    "cupdaisy_load_receipt": records.LoadReceipt, "cupdaisy_outcome": records.Outcome, "cupdaisy_job": records.Job,
    "cupdaisy_left_out": records.LeftOut, "cupdaisy_job_input": records.JobInput, "cupdaisy_reference": records.JobReference, "cupdaisy_edit": records.Edit,
    "cupdaisy_journal_edit": records.JournalEdit, "cupdaisy_request": records.Request,
    "cupdaisy_frame": records.Frame}
# Members that have another name in C, where it is a word of Python's.
IN_C = {("Edit", "begin"): "from"}
CONSTANTS = ("DONE", "NO_SESSION", "TOO_SMALL", "NO_SUCH_PLACE", "NO_SUCH_SLICE", "NOTHING_DUE", "STALE", "NOT_HELD", "PENDING",
             "HAS_FAULT", "NO_PICTURE", "NO_WEIGHTS", "PLAN", "FAULT", "EMPTY", "INSERT_FIRST", "INSERT_AFTER", "DELETE",
             "REPLACE")


def assertions():
    """What has to hold in C."""
    for name, kind in STRUCTS.items():
        yield f"sizeof({name}) == {ctypes.sizeof(kind)}"
        yield f"_Alignof({name}) == {ctypes.alignment(kind)}"
        for member in kind.names():
            field, in_c = getattr(kind, member), IN_C.get((kind.__name__, member), member)
            yield f"offsetof({name}, {in_c}) == {field.offset}"
            yield f"sizeof((({name} *)0)->{in_c}) == {field.size}"
    for name in CONSTANTS:
        yield f"CUPDAISY_{name} == {getattr(library, name)}"


def compiled(lines):
    """What the compiler says of these lines after the header."""
    text = '#include "cupdaisy.h"\n' + "".join(f"{line}\n" for line in lines)
    command = ["cc", "-std=c11", "-fsyntax-only", "-x", "c", "-I", str(INCLUDE), "-"]
    return subprocess.run(command, input=text, stderr=subprocess.PIPE, text=True, check=False).stderr


@unittest.skipUnless(shutil.which("cc") and (INCLUDE / "cupdaisy.h").exists(), "there is no compiler, or no header")
class Layout(unittest.TestCase):
    def test_structs_and_constants_are_those_of_the_header(self):
        self.assertEqual(compiled(f'_Static_assert({each}, "{each}");' for each in assertions()), "")

    def test_another_size_is_told(self):
        self.assertIn("another", compiled(['_Static_assert(sizeof(cupdaisy_receipt) == 31, "another");']))

    def test_calls_have_the_parameters_of_the_header(self):
        header = (INCLUDE / "cupdaisy.h").read_text()
        prototypes = dict(re.findall(r"^uint32_t cupdaisy_(\w+)\(([^;]*)\);", header, re.MULTILINE))
        for name, types in {**library.CALLS, **library.NAMES}.items():
            with self.subTest(name):
                of_session = name in library.CALLS
                wanted = prototypes[name].split(",")[of_session:]
                self.assertEqual(len(types), len(wanted))
                for kind, parameter in zip(types, wanted):
                    is_pointer = "*" in parameter
                    self.assertEqual(is_pointer, kind is ctypes.c_void_p or hasattr(kind, "contents"), parameter)
                    if not is_pointer:
                        size = {"bool": 1, "size_t": 8, "uint16_t": 2, "uint32_t": 4, "uint64_t": 8}[parameter.split()[0]]
                        self.assertEqual(ctypes.sizeof(kind), size, parameter)


if __name__ == "__main__":
    unittest.main()
