"""Compares the plain C program for courses, or the proved one, with the stored vectors.

    python3 bench/course/check.py
    python3 bench/course/check.py archive

Builds the C program, or with `archive` the archive of `course_c` (tools/archive), as a shared
library (CC names the compiler) and makes each call of vectors/course.jsonl. The refusal, the
number of letters, the whole list and the zeros in the work room must agree.
"""

import ctypes
import pathlib
import sys
from collections import Counter

sys.path.insert(0, str(pathlib.Path(__file__).resolve().parents[1]))
from calls import asks_for_archive, from_archive, from_sources, given_words, is_zero, lines, table, with_lengths  # noqa: E402


class CourseAnswer(ctypes.Structure):
    _fields_ = [("refusal", ctypes.c_uint32), ("count", ctypes.c_uint32)]


def built(archive):
    if archive:
        return from_archive("course_c", "course_c", CourseAnswer)
    return from_sources("libplain_course.so", ["-Iinclude", "bench/course/plain.c"], "plain_course", CourseAnswer)


def difference(function, wanted):
    course, work = table(ctypes.c_uint32, wanted["list"]), table(ctypes.c_uint16, wanted["work"])
    answer = function(*given_words(wanted), ctypes.c_uint32(wanted["state"]), *with_lengths([course, work]))
    found = wanted["course"]
    if (answer.refusal, answer.count) != (wanted["refusal"], len(found)):
        return "answer %d %d" % (answer.refusal, answer.count)
    if course[:len(found)] != found or not is_zero(course, len(found)):
        return "list"
    return None if is_zero(work) else "numbers in the work room"


def main(archive):
    function = built(archive)
    calls = lines("course.jsonl")
    compared, faults = Counter(call["refusal"] for call in calls), 0
    for number, call in enumerate(calls, 1):
        fault = difference(function, call)
        if fault:
            faults += 1
            print("line %d of vectors/course.jsonl: %s" % (number, fault))
    print("%s: %d courses compared (%s), %d differ" % (
        "archive" if archive else "plain C", len(calls), ", ".join("refusal %d: %d" % item for item in sorted(compared.items())), faults))
    return 1 if faults else 0


if __name__ == "__main__":
    sys.exit(main(asks_for_archive()))
