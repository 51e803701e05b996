"""Sheets that turn on the spelling of tokens and lines, each with the refusal
that document 01 gives it, worked out by hand (0 for none of 1 to 7)."""

from grammar import CONSTRAINT_WORDS

# Constraint lines over the streams x and y, both from 0 to 1.
LINES = {
    0: ("x == y", "  x   ==  y  ", "(x)==(y)", "(x)until(y)", "((x))<=((y))",
        "( x )+( y ) != 9", "first(x) == y", "not not x -> y",
        "next(x + y) >= 0", "x - -5 != 0", "x + -1 < 1", "-1000000000 < x",
        "x fby y == x", "first x fby next y == y", "x == x fby x",
        "if x then y else 0 == 0", "0 == if x then y else 0",
        "if first x then next y else not x == 0",
        "if ( if x then y else x ) then ( x + y ) else ( if 1 then 2 else 3 )"
        " != 7", "if x then 1 else 2 until if x then 1 else 2",
        "x until y", "1 until 1", "x -> y", "not ( x and y ) -> 1",
        "next first next x == y", "x % y == x / y", "x lt y == y gt x",
        "x + y == y + x", "( x + y ) == ( y + x )", "0 == 0"),
    3: ("x", "x y", "x + y", "x ==", "== y", "==", "until", "x == y ==",
        "x == y == x", "x until y until x", "x == y until x", "x -> y == 1",
        "( x == y )", "( x == y ) == 1", "x + y + x == 0", "x == y + x + y",
        "x + == y", "+ x == y", "- x == y", "x == - 1", "x -1 == y",
        "x == +1", "x == 01", "x == 00", "x == -0", "x == -01", "x == 1.0",
        "x == 1e3", "x == 1,000", "x == 0x1", "x == --1", "x == 1-",
        "x==y", "x ==y", "(x==y)", "x+y == 0", "(x)+(y)==0", "x == !y",
        "x = y", "x <> y", "x => y", "x <- y", "x && y == 0", "x == y;",
        "x == X", "x == x1", "x == x_y", "x == ninechars", "x == Not y",
        "( x == y", "x == y )", "( x ) ) == ( ( y )", ") x ( == y",
        "x == ( )", "( ) == x", "( ( ) ) == x", "x == [ y ]", "x == { y }",
        "x == ( x ) ( y )", "x ( y ) == 0", "( x y ) == 0", "x y == 0",
        "first == x", "x == first", "x == next", "not == not", "x == x not",
        "x not y == 0", "x == not ( )", "first next not == x",
        "if == x", "if x == y", "if x then y == 0", "if x then y else == 0",
        "if x else y then x == 0", "if x then y else x + y == 0",
        "if x + y then x else y == 0", "x + if x then y else x == 0",
        "if x then if x then y else x else y == 0", "then == x", "x == else",
        "( if x then y ) else x == 0", "if ( x then y ) else x == 0",
        "not if x then y else x == 0", "x fby y fby x == 0",
        "x == fby", "fby == x", "x == and", "x lt == y", "x == until",
        "until == x", "until until until", "x until", "until x",
        "x == y @ 1", "x @ 1 == y", "x == y # note", "x == `y`"),
    4: ("z == x", "x == z", "x == first z", "x until ( y or ( 0 fby iff ) )",
        "x == notx", "elses == 1", "if x then z else y == 0",
        "( x fby z ) -> 1"),
}

# Whole sheets; lines are parted by `|`.
SHEETS = {
    0: ("x|0|1", "x|0|1|", "  x  |  0  |  1  |  x  ==  x  |", "abcdefgh|0|1",
        "iff thenn el firstt|0 0 0 0|0 0 0 0", "x|-1|-1", "x|-5|0", "a b|0 1|0 1",
        "x|1000000000|1000000000", "lts|0|0|lts == 0"),
    3: ("", "|", " ", "||", "x", "x|", "x|0", "x|0|", "x|0||", "x||1", "|x|0|1",
        "x|0|1||", "x|0|1| |", "x|0|1||x == x", "x|0|1|x == x||",
        "x|0 0|1", "x|0|1 1", "x y|0|1", "x y|0 0|1", "x y|0|1 1", "x|0|y",
        "x|y|0", "0|0|0", "X|0|1", "xY|0|1", "x1|0|1", "abcdefghi|0|1",
        "x,y|0 0|1 1", "( x )|0|1", "x|( 0 )|1", "x|0|( 1 )", "(|0|1", "x|(|1",
        "x|-0|1", "x|00|1", "x|01|1", "x|0|+1", "x|0|1.0", "x|-|1", "x|--1|1",
        "x|0|-01", "x|x|x", "x < y|0 0|1 1", "+|0|1", "<=|0|1", "->|0|1",
        "until|0|1|until == 1", "if|0|1|if == if", "next|0|1|next == 0",
        "x|0|1|x == 1 1", "x x|0|1", "x|1|0|x", "x|0|99999999999|x =="),
    4: tuple(word + "|0|1" for word in CONSTRAINT_WORDS) + (
        "x x|0 0|1 1", "x y x|0 0 0|1 1 1", "x if|0 0|1 1", "until until|0 0|1 1",
        "next|0|1|next x == 0", "fby|0|1|1 fby 1 == 1", "x|1|0|y == 0",
        "x x|0 0|1 1|x == x", "x x|5 0|1 99999999999", "x|0|4096|y == 0",
        "x|0|1|y * 2000000000 == 0"),
    5: ("x|1|0", "x|0|-1", "x|-1|-2", "x y|0 5|1 4", "x|1000000001|1000000001",
        "x|-1000000001|0", "x|0|4294967296", "x|0|18446744073709551616",
        "x|0|1|x == 9223372036854775808", "x|0|1|x == -9223372036854775809",
        "x|0|1|x == 18446744073709551617", "x|0|1|x == 4294967296",
        "x|1|0|x * 1000000000 == 1000000000 * 2", "x|0|1000000001",
        "x|0|1|first first first first first first first first first "
        "1000000001 == 0"),
    6: ("x|0|1024|1000000000 + 1 == x", "x|0|4|x * 250000001 == 0",
        "x|-4|0|250000001 * x == 0", "x|-2|2|( x * x ) * 250000001 == 0",
        "x|0|1|1 until ( 1000000000 + 1 )", "x|0|1|( 1000000000 + x ) -> 1"),
    7: ("x|0|1024", "x y|0 0|32 31", "x|-1000000000|1000000000",
        "x|0|1|next next next next next next next x == 0"),
}


def spelling_sheets():
    """Triples of name, refusal and sheet."""
    cases = [("x y|0 0|1 1|" + line, refusal)
             for refusal, lines in LINES.items() for line in lines]
    cases += [(text, refusal)
              for refusal, texts in SHEETS.items() for text in texts]
    return [("spelling-%d" % number, refusal, text.replace("|", "\n").encode())
            for number, (text, refusal) in enumerate(cases)]
