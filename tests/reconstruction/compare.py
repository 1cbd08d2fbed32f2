"""tervuola_fill against skimage.morphology.reconstruction(.., method="erosion") on random sheets.

A void that is outside reads as -32768 in seed and mask, which makes the data cells beside it keep their elevation, as outlets do. A gap reads as 32767, above
all data, so that no water passes it. Of the border the open sides are in the seed. The groups of voids and of data cells are scikit-image's too: voids are outside
where their group has one on an open side, and the fill refuses with 18 where a group of data cells has none there and none beside a void that is outside.
"""
import ctypes
import sys

import numpy as np
from skimage.measure import label
from skimage.morphology import reconstruction


class Answer(ctypes.Structure):
    _fields_ = [("number", ctypes.c_uint32), ("place", ctypes.c_uint32)]


library = ctypes.CDLL(sys.argv[1])
fill = library.tervuola_fill
fill.restype = Answer
fill.argtypes = [ctypes.c_uint32] * 3 + [ctypes.c_void_p, ctypes.c_size_t] * 3


def open_border(shape, closed):
    border = np.zeros(shape, dtype=bool)
    for side, line in ((1, np.s_[:, 0]), (2, np.s_[:, -1]), (4, np.s_[0, :]), (8, np.s_[-1, :])):
        if not closed & side:
            border[line] = True
    return border


def groups_with(cells, some):
    """Those of the cells, joined at sides and corners, whose group has one of `some`."""
    groups = label(cells, connectivity=2)
    return cells & np.isin(groups, groups[cells & some])


def beside(cells):
    wide = np.pad(cells, 1)
    rows, cols = cells.shape
    return np.any([wide[r : r + rows, q : q + cols] for r in range(3) for q in range(3)], axis=0)


def filled(sheet, closed, outlets):
    out = np.zeros_like(sheet)
    work = np.zeros(4 * sheet.size, dtype=np.uint32)
    answer = fill(*sheet.shape, closed, sheet.ctypes.data, sheet.size, out.ctypes.data, out.size, work.ctypes.data, work.size)
    data = sheet != -32768
    stranded = np.flatnonzero(data & ~groups_with(data, outlets))
    assert (answer.number, answer.place) == ((18, stranded[0]) if stranded.size else (0, 0)), (answer.number, answer.place)
    return None if answer.number else out


def reconstructed(sheet, outside, outlets):
    mask = sheet.astype(np.int32)
    mask[(sheet == -32768) & ~outside] = 32767
    seed = np.where(outlets | outside, mask, 32767)
    out = reconstruction(seed, mask, method="erosion", footprint=np.ones((3, 3)))
    out[sheet == -32768] = -32768
    return out


rng = np.random.default_rng(1)
sheets = sided = gapped = refused = islands = 0
for k in range(900):
    rows, cols = rng.integers(1, 60, 2)
    high = int(rng.choice([1, 3, 20, 30000]))
    sheet = rng.integers(-high, high + 1, (rows, cols)).astype(np.int16)
    if k % 3 == 0:
        sheet[rng.random((rows, cols)) < 0.03] = -32768
    if k % 3 == 1:
        sheet[rng.random((rows, cols)) < rng.random()] = -32768
    closed = int(rng.integers(16)) if k % 2 else 0
    voids = sheet == -32768
    border = open_border(sheet.shape, closed)
    outside = groups_with(voids, border)
    outlets = ~voids & (border | beside(outside))
    gap = (voids & ~outside).any()
    out = filled(sheet, closed, outlets)
    if out is None:
        refused += 1
        islands += gap and closed < 15
        continue
    assert (out == reconstructed(sheet, outside, outlets)).all(), f"sheet {k} differs"
    sheets += 1
    sided += closed > 0
    gapped += gap
assert refused and sided and gapped and islands
print(f"reconstruction: {sheets} sheets filled as scikit-image fills them, {sided} of them with closed sides, {gapped} with gaps; "
      f"{refused} with data that has no way out, {islands} of them beside a gap and with a side open")
