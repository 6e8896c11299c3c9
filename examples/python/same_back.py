"""Arrays go into a folder by the wrapper beside this file and come back the same; lines that are refused raise.

same_back.py PROGRAM. It prints a line for each that doesn't, and ends with 1 then.
"""

import os
import sys
import tempfile

sys.dont_write_bytecode = True
os.environ["TENSOR_RUN"] = os.path.abspath(sys.argv[1])
import tensor_run

failed = False


def same(what, got, wanted):
    global failed
    got = got.tolist() if hasattr(got, "tolist") else got
    if got != wanted:
        failed = True
        print(f"same_back: {what}: {got} and not {wanted}")


def extremes(dtype):
    bits = int(dtype.lstrip("uint"))
    return [0, 2**bits - 1] if dtype[0] == "u" else [-(2 ** (bits - 1)), 2 ** (bits - 1) - 1]


def main():
    with tempfile.TemporaryDirectory() as root:
        for dtype in tensor_run.DTYPES:
            least, greatest = extremes(dtype)
            cells = [[least, 1, 2], [3, greatest, 5]]
            tensor_run.make(root, dtype, (2, 3), dtype, (2, 2))
            tensor_run.write(root, dtype, cells)
            same(dtype, tensor_run.read(root, dtype), cells)
            same(f"{dtype}, a column", tensor_run.read(root, dtype, [{"at": 1, "dims": [1]}]), [1, greatest])
        tensor_run.write(root, "int8", 7, [{"at": 0, "dims": [0]}])
        same("one number for a row", tensor_run.read(root, "int8"), [[7, 7, 7], [3, 127, 5]])
        try:
            tensor_run.write(root, "uint8", 256)
            same("256 in uint8", "written", "refused")
        except tensor_run.Refused as refused:
            same("256 in uint8", refused.answer, {"bad_values": [], "line": 2})
        opened = {"open": "a", "spec": tensor_run.spec("int8")}
        parted = tensor_run.run([opened, {"read": "b"}], [opened], [{"read": "c"}], root=root, workers=2)
        same("answers of three scripts", [[a.get("unknown_name") for a in answers] for answers in parted], [[None, "b"], [None], ["c"]])
        try:
            tensor_run.run([{"commit": True}], root=root, workers=65)
            same("65 workers", "run", "refused")
        except tensor_run.Failed as ended:
            same("65 workers", str(ended), "status 2: tensor_run: words refused")
    sys.exit(1 if failed else 0)


main()
