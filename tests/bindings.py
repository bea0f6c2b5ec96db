"""The Python binding compared with what plain Python computes: prints how many comparisons held, and stops at the first that does not."""
import doctest
import itertools
import pickle
import random
import sys
from array import array

import zibsnarda

try:
    import numpy
except ImportError:
    numpy = None

held = 0


def expect(holds, says):
    global held
    if not holds:
        sys.exit(f"does not hold: {says}")
    held += 1


def refusal(call, *arguments):
    try:
        call(*arguments)
    except zibsnarda.Refused as refused:
        return refused.number, refused.place
    return 0, 0


def words(count):
    return array("I", random.sample(range(1 << 32), count))


def laid(block, lengths, order):
    """The block with its axes in another order, by coordinates."""
    strides = [1] * len(lengths)
    for k in reversed(range(len(lengths) - 1)):
        strides[k] = strides[k + 1] * lengths[k + 1]
    places = itertools.product(*(range(lengths[axis]) for axis in order))
    return [block[sum(p * strides[axis] for p, axis in zip(place, order))] for place in places]


def flat_turns():
    for m, n in itertools.product(range(1, 9), range(1, 9)):
        block, turned = words(m * n), None
        turned = laid(block, [m, n], [1, 0])
        for call in (zibsnarda.turn, zibsnarda.turn_passes, lambda b, s, m, n: zibsnarda.turn_halves(b, m, n)):
            lent, scratch = array("I", block), array("I", [7] * (max(m, n) + 1))
            call(lent, scratch, m, n)
            expect(list(lent) == turned, f"the turn of {m} by {n}")
        zibsnarda.turn_back(lent, scratch, m, n)
        expect(lent == block and list(scratch) == [0] * max(m, n) + [7], f"the way back of {m} by {n}")
        lent, scratch = array("I", turned), array("I", [7] * (max(m, n) + 1))
        zibsnarda.turn_back_passes(lent, scratch, m, n)
        expect(lent == block and list(scratch) == [0] * max(m, n) + [7], f"the way back of {m} by {n} by passes")
        record = zibsnarda.LineRecord()
        while record.done < zibsnarda.lines(m, n):
            zibsnarda.tick(lent, scratch, record, m, n)
        expect(list(lent) == turned, f"the turn of {m} by {n}, a line a call")
        expect(refusal(zibsnarda.turn, lent, array("I", [0] * (max(m, n) - 1)), m, n) == (4, 0), "short scratch")
        expect(refusal(zibsnarda.turn, memoryview(lent)[1:], scratch, m, n) == (3, 0), "a short buffer")


def orders():
    for lengths in ([2, 3, 4, 5], [3, 1, 2, 6], [1, 1, 1, 1]):
        for number, order in enumerate(itertools.permutations(range(4))):
            block = words(lengths[0] * lengths[1] * lengths[2] * lengths[3])
            expected = laid(block, lengths, order)
            lent, scratch = array("I", block), array("I", [0] * max(lengths))
            moved = zibsnarda.request(lent, scratch, lengths, 1, number)
            expect(list(lent) == expected and moved.lengths == [lengths[k] for k in order], f"order {number} of {lengths}")
            lent = array("I", block)
            moved = zibsnarda.chain(lent, scratch, lengths, zibsnarda.plan(number))
            expect(list(lent) == expected and moved.order == number, f"the plan of order {number} of {lengths}")
    expect(refusal(zibsnarda.chain, lent, scratch, lengths, [0, 3]) == (6, 1), "a bad swap")
    expect(refusal(zibsnarda.plan, 24) == (7, 0), "a bad order number")


def five_axes():
    lengths = [2, 3, 1, 4, 2]
    for number, order in enumerate(itertools.permutations(range(5))):
        block = words(48)
        expected = laid(block, lengths, order)
        lent, scratch = array("I", block), array("I", [0] * 4)
        moved = zibsnarda.request5(lent, scratch, lengths, 1, number)
        expect(list(lent) == expected and moved.lengths == [lengths[k] for k in order], f"order {number} of {lengths}")
        lent = array("I", block)
        expect(zibsnarda.chain5(lent, scratch, lengths, zibsnarda.plan5(number)).order == number and list(lent) == expected, f"plan {number}")


def stopped_turns():
    for m, n in ((4, 6), (7, 5)):
        block = words(m * n)
        lent, scratch, progress = array("I", block), array("I", [0] * max(m, n)), array("I", [0])
        while progress[0] < 2 * zibsnarda.lines(m, n) + 1:
            zibsnarda.resume(lent, scratch, progress, m, n, random.randrange(40))
        expect(list(lent) == laid(block, [m, n], [1, 0]), f"the stopped turn of {m} by {n}")


def sheets():
    text = b"shape\t1\t1\t2\t3\nchain\t2\nrow\t1\t2\t3\nrow\t4\t5\t6\n"
    lent, scratch, out = array("I", [0] * 1024), array("I", [0] * 1024), bytearray(16384)
    done = zibsnarda.job(text, lent, scratch, out)
    expect(out[: done.count] == b"shape\t1\t1\t3\t2\norder\t1\nrow\t1\t4\nrow\t2\t5\nrow\t3\t6\n" and done.refused is None, "the job")
    expect(zibsnarda.read_result(out[: done.count], lent) == ([1, 1, 3, 2], 0, 1), "its result read back")
    done = zibsnarda.job(text[:-1], lent, scratch, out)
    expect((done.refused.number, done.refused.place) == (10, 4), "a line without its end")
    expect(out[: done.count] == b"refused\t10\t4\n", "its text")


def raises(kind, call, label):
    try:
        call()
    except kind:
        expect(True, "")
    else:
        expect(False, label)


def memory():
    block, scratch = words(6), array("I", [0] * 3)
    for lent in (block, memoryview(block)[2:5]):
        raises(ValueError, lambda: zibsnarda.turn(block, lent, 2, 3), "buffers that overlap are taken")
    apart = memoryview(bytearray(29))[1:25].cast("I")
    raises(ValueError, lambda: zibsnarda.turn(apart, scratch, 2, 3), "a buffer that is not aligned is taken")
    for buffer in (array("H", [0] * 6), bytes(24), memoryview(words(12))[::2], bytearray(24), *wrong_formats("fid", 6)):
        raises(TypeError, lambda: zibsnarda.turn(buffer, scratch, 2, 3), f"{buffer} is taken")
        raises(TypeError, lambda: zibsnarda.turn(block, buffer, 2, 3), f"scratch {buffer} is taken")
        raises(TypeError, lambda: zibsnarda.resume(block, scratch, buffer, 2, 3, 1), f"a progress word {buffer} is taken")
        raises(TypeError, lambda: zibsnarda.read_sheet(buffer if isinstance(buffer, array) else array("b", [1]), block), "a text of other items is taken")
    for buffer in wrong_formats("fiI", 6):
        raises(TypeError, lambda: zibsnarda.judge_cycles(buffer, 2, 3) if buffer.format != "I" else zibsnarda.offset_delay(buffer), f"{buffer.format} is taken")
        raises(TypeError, lambda: zibsnarda.add_camera(block, 6, 1, 0, buffer) if buffer.format != "I" else zibsnarda.join(buffer, 1), f"{buffer.format} is taken")
    for buffer in wrong_formats("dQ", 4):
        raises(TypeError, lambda: zibsnarda.offset_delay(buffer), f"readings {buffer.format} are taken")
        raises(TypeError, lambda: zibsnarda.choose(buffer, buffer), f"readings {buffer.format} are taken")
    try:
        zibsnarda.turn(array("f", [0] * 6), scratch, 2, 3)
    except TypeError as error:
        expect("unsigned 32-bit" in str(error) and "'f'" in str(error), "the message says what was wanted and what was got")
    for call, saying in (
        (lambda: zibsnarda.read_sheet("text", block), "wanted bytes; got str"),
        (lambda: zibsnarda.turn([0] * 6, scratch, 2, 3), "got list"),
        (lambda: zibsnarda.turn(block, scratch, 2.0, 3), "wanted a whole number; got float"),
        (lambda: zibsnarda.chain(block, scratch, [1, 1, 2, "3"], []), "wanted a whole number; got str"),
        (lambda: zibsnarda.tick(block, scratch, 0, 2, 3), "wanted a LineRecord; got int"),
    ):
        try:
            call()
        except TypeError as error:
            expect(saying in str(error), f"{error} in the place of {saying}")
        else:
            expect(False, f"no error in the place of {saying}")


def wrong_formats(formats, count):
    """Memory in other formats, with array alone."""
    return [memoryview(array(letter, [0] * count)) for letter in formats]


def with_numpy():
    """What numpy computes, and what of numpy is refused."""
    lengths, scratch = [2, 3, 4, 5], numpy.zeros(5, "uint32")
    for number in range(24):
        axes = zibsnarda.order_axes(number)
        block = numpy.arange(120, dtype="uint32")
        zibsnarda.request(block, scratch, lengths, 1, number)
        expect((block == numpy.transpose(numpy.arange(120).reshape(lengths), axes).ravel()).all(), f"release 1 of {number} is numpy.transpose")
        block = numpy.arange(120, dtype="uint32")
        zibsnarda.request(block, scratch, lengths, 2, number)
        moved = numpy.moveaxis(numpy.arange(120).reshape(lengths), (0, 1, 2, 3), axes)
        expect((block == moved.ravel()).all(), f"release 2 of {number} is numpy.moveaxis")
    block = numpy.arange(6, dtype="uint32").reshape(2, 3)
    zibsnarda.turn(block, scratch, 2, 3)
    expect((block.reshape(3, 2) == numpy.arange(6).reshape(2, 3).T).all(), "a 2-D array keeps its old shape")
    for kind in (">u4", "float32", "int32", "float64", "uint64", "u2"):
        raises(TypeError, lambda: zibsnarda.turn(numpy.zeros(6, kind), scratch, 2, 3), f"words {kind} are taken")
    for kind in (">i8", "uint64", "float64", "int32"):
        raises(TypeError, lambda: zibsnarda.offset_delay(numpy.array([0, 7, 9, 10], kind)), f"readings {kind} are taken")


def names():
    """Orders by their axes, refusals that are sent on, and what the module has."""
    for count, most in ((4, 24), (5, 120)):
        for number in range(most):
            expect(zibsnarda.order_number(zibsnarda.order_axes(number, count)) == number, f"order {number} of {count} axes")
    expect(refusal(zibsnarda.order_axes, 24) == (7, 0), "a bad order number")
    raises(ValueError, lambda: zibsnarda.order_number((0, 0, 1, 2)), "an order with an axis twice is taken")
    sent = pickle.loads(pickle.dumps(zibsnarda.Refused(6, 1)))
    expect((sent.number, sent.place, sent.name, str(sent)) == (6, 1, "ZIB_BAD_SWAP", str(zibsnarda.Refused(6, 1))), "a refusal is sent on")
    expect(all(hasattr(zibsnarda, name) for name in zibsnarda.__all__) and zibsnarda.__version__ == "3.0", "what the module has")


# A number that C would cut down to its width never reaches the call.
def numbers():
    block, scratch = words(6), array("I", [0] * 3)
    for swap in (1 << 64, -1):
        raises(ValueError, lambda: zibsnarda.chain(block, scratch, [1, 1, 2, 3], [swap]), f"a swap {swap} is taken")
    raises(ValueError, lambda: zibsnarda.turn(block, scratch, 2 + (1 << 64), 3), "a side past 64 bits is taken")
    for offset in (1 << 63, 1 << 64, -(1 << 63) - 1):
        raises(ValueError, lambda: zibsnarda.to_frames(offset, 1), f"an offset {offset} is taken")
    raises(ValueError, lambda: zibsnarda.join([1 << 64], 1), "a shift past 64 bits is taken")
    raises(ValueError, lambda: zibsnarda.judge_cycles([1 << 32, 1], 2, 3), "a word past 32 bits is taken")


random.seed(1)
failed, tried = doctest.testmod(zibsnarda)
expect(failed == 0 and tried > 0, "an example in the documentation")
held += tried - 1
for group in (flat_turns, orders, five_axes, stopped_turns, sheets, memory, numbers, names, *([with_numpy] if numpy else [])):
    group()
print(held)
