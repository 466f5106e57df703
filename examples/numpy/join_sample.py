"""Joins the tables of document 01's sample, held as NumPy structured arrays.

    python3 examples/numpy/join_sample.py       (with pigrozd installed, or PYTHONPATH=python)
"""
import numpy

import pigrozd

frames = numpy.array([(10, 1), (11, 2), (12, 2), (13, 4)], dtype=[("frame", "u4"), ("exposure", "u4")])
exposures = numpy.array([(1, 7), (2, 8), (2, 9), (3, 7)], dtype=[("exposure", "u4"), ("reading", "u4")])
readings = numpy.array([(7, 29510), (7, 29510), (9, 29530)], dtype=[("reading", "u4"), ("centikelvin", "u4")])

tables = {"frames": frames, "exposures": exposures, "readings": readings}
table = pigrozd.join(tables, "(frames (exposures readings))").to_numpy()

for frame in numpy.unique(table["frame"]):
    kelvin = table["centikelvin"][table["frame"] == frame] / 100
    print("frame %d: %d readings, mean %.2f K" % (frame, len(kelvin), kelvin.mean()))

# Frame 13 has an exposure that no table knows, so it is in no row.
print("without a reading:", numpy.setdiff1d(frames["frame"], table["frame"]).tolist())

# A masked element was not recorded. It comes back masked if its field is in one table only; else it matches nothing.
tables["readings"] = numpy.ma.array(readings, mask=[(False, False), (False, False), (False, True)])
table = pigrozd.join(tables, "(frames (exposures readings))").to_numpy()
print("not recorded for frames:", table["frame"][table["centikelvin"].mask].tolist())
print("mean of what was recorded: %.2f K" % (table["centikelvin"].mean() / 100))
tables["readings"] = numpy.ma.array(readings, mask=[(True, False), (False, False), (False, False)])
print("rows without the first reading:", len(pigrozd.join(tables, "(frames (exposures readings))")))
