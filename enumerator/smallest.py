"""The smallest sheet that still fails, for comparisons of random sheets."""

import random
import re
import sys
import time

# Seconds for making a failing sheet smaller.
LONGEST_SEARCH = 60


def tokens_of(line):
    return re.findall(r"[()]|[^ ()]+", line)


def line_text(tokens):
    return " ".join(tokens)


def groups(tokens):
    """The places of each bracket and of the one that closes it."""
    opened = []
    for place, token in enumerate(tokens):
        if token == "(":
            opened.append(place)
        elif token == ")" and opened:
            yield opened.pop(), place


def smaller_lines(line):
    """Lines with less in them: a bracket with what is in it replaced by one of
    its tokens or by a bracket within it, runs of tokens left out, integers
    nearer to 0."""
    tokens = tokens_of(line)
    inner = sorted(groups(tokens), key=lambda pair: pair[0] - pair[1])
    for first, last in inner:
        for token in dict.fromkeys(tokens[first + 1:last]):
            if token not in ("(", ")"):
                yield line_text(tokens[:first] + [token] + tokens[last + 1:])
        for start, end in inner:
            if first < start and end < last:
                yield line_text(tokens[:first] + tokens[start:end + 1]
                                + tokens[last + 1:])
        yield line_text(tokens[:first] + tokens[first + 1:last]
                        + tokens[last + 1:])
    for length in (8, 4, 3, 2, 1):
        for first in range(len(tokens) - length + 1):
            yield line_text(tokens[:first] + tokens[first + length:])
    for place, token in enumerate(tokens):
        if re.fullmatch("-?[1-9][0-9]*", token):
            for value in sorted({0, 1, int(token) // 2}, key=abs):
                if abs(value) < abs(int(token)):
                    yield line_text(tokens[:place] + [str(value)]
                                    + tokens[place + 1:])


def smaller_sheets(text):
    """Sheets with less in them: without one or several lines, without a
    stream, with a smaller line, without the last end of line."""
    lines = text.decode("latin-1").split("\n")
    for length in (8, 4, 2, 1):
        for first in range(len(lines) - length, -1, -1):
            yield lines[:first] + lines[first + length:]
    first = 1 if tokens_of(lines[0])[:1] == ["release"] else 0
    heads = [tokens_of(line) for line in lines[first:first + 4]]
    for stream in range(len(heads[0]) if heads else 0):
        for count in (4, 3):
            if all(len(head) == len(heads[0]) for head in heads[:count]):
                yield lines[:first] + [
                    line_text(head[:stream] + head[stream + 1:])
                    for head in heads[:count]] + lines[first + count:]
    for number, line in enumerate(lines):
        for shorter in smaller_lines(line):
            if shorter != line:
                yield lines[:number] + [shorter] + lines[number + 1:]


def size(text):
    return len(text), sum(text)


def smallest(text, fails):
    """A sheet that fails as the given one does and of which none of the
    smaller ones that are tried does."""
    ends = time.monotonic() + LONGEST_SEARCH
    is_smaller = True
    while is_smaller and time.monotonic() < ends:
        is_smaller = False
        for lines in smaller_sheets(text):
            tried = "\n".join(lines).encode("latin-1")
            if size(tried) < size(text) and fails(tried):
                text, is_smaller = tried, True
                break
            if time.monotonic() > ends:
                break
    return text


def smallest_of(texts, fails):
    """The same for several sheets that fail together, one after the other."""
    texts = list(texts)
    for place in range(len(texts)):
        texts[place] = smallest(texts[place], lambda tried: fails(
            *texts[:place], tried, *texts[place + 1:]))
    return texts


def smallest_case(case, difference, count):
    """What is told of a drawn case on which two routes differ: the case, the
    smallest texts among the first `count` of it with which they still do, and
    what they then differ in.  The difference function takes the rest of the
    case as it is, and draws what it draws besides with one seed."""
    drawn = case[:count]
    places = [place for place, part in enumerate(drawn)
              if isinstance(part, bytes)]

    def with_texts(*texts):
        parts = list(drawn)
        for place, text in zip(places, texts):
            parts[place] = text
        return tuple(parts)

    def fails(*texts):
        try:
            return difference(random.Random(1), with_texts(*texts))
        except (AssertionError, IndexError, KeyError, TypeError, ValueError):
            # A smaller text may be none that the difference is asked for.
            return None

    texts = [drawn[place] for place in places]
    if not fails(*texts):
        return case
    texts = smallest_of(texts, fails)
    return (*case, "the smallest that still differs:", *with_texts(*texts),
            *fails(*texts)[count:])


def print_difference(texts, fails, details):
    """Tells of sheets that fail: what was found, the sheets, and the smallest
    ones that still fail."""
    print("DIFFERENCE", *details, sep="\n  ")
    for what, shown in (("the sheet", texts),
                        ("the smallest that still fails",
                         smallest_of(texts, fails))):
        for text in shown:
            print("%s, %d bytes:" % (what, len(text)))
            print(text.decode("latin-1"))
    sys.stdout.flush()
