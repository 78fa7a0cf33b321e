"""Wrong traces and wrong words of tools/page/make_page, each with what the line that tells of it has."""

HEADER = "number,event,address,instruction,mnemonic,place,before,after,sources\n"
# What is wrong with a trace, the file's text, and what the line that tells it has.
WRONG_TRACES = [
    ("nothing", "", "line 1: it does not begin as a trace"),
    ("no trace", "hello\n", "line 1: it does not begin as a trace"),
    ("no event", HEADER, "line 1: no event follows"),
    ("a cut line", HEADER + "1,tick,,,,,,,\n2,tick,,", "line 3: it was cut off"),
    ("a cut store", HEADER + "1,tick,,,,ext,none,timer,ex", "line 2: it was cut off"),
    ("a field too few", HEADER + "1,tick,,,,,,\n", "line 2: it has 8 fields of 9"),
    ("a field too many", HEADER + "1,tick,,,,,,,,\n", "line 2: it has 10 fields of 9"),
    ("a number", HEADER + "1,tick,,,,,,,\n3,tick,,,,,,,\n", "line 3: number '3' follows 1"),
    ("an event", HEADER + "1,tock,,,,,,,\n", "line 2: 'tock' is no event"),
    ("a place", HEADER + "1,tick,,,,x9,0,0,\n", "line 2: 'x9' is no place"),
    ("an address", HEADER + "1,cpu,200,1B77,SR,p,0,0,p\n", "line 2: '200' is no address"),
    ("sources", HEADER + "1,tick,,,,ext,none,none,<b>\n", "line 2: '<b>' is no sources"),
    ("bytes", HEADER + "1,tick,,,,ext,n\xf6ne,none,\n", "a byte is not ASCII"),
]
WRONG_WORDS = [
    (["--printer", "missing"], "missing: No such file or directory"),
    (["--symbols", "missing"], "missing: No such file or directory"),
    (["--punch", "odd"], "odd: 3 bytes are no cards of 80"),
    (["--tape0", "odd"], "odd: short header at 0"),
    (["--symbols", "odd"], "odd: the columns of this listing are not known"),
    (["--wrong"], "unrecognized arguments: --wrong"),
    (["--svg", "space", "out"], "no view 'space'"),
    (["--svg", "causes", "out"], "no place is named: add --of PLACE"),
    (["--svg", "causes", "out", "--of", "q1"], "--of q1: no place"),
    (["--svg", "causes", "out", "--of", "k000800"], "nothing stored into k000800 by then"),
    (["--listing-columns", "1-6,8-23,25"], "there is no --symbols"),
    (["-o", "none/out"], "none/out: No such file or directory"),
]
