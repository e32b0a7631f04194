"""Lines and files of JSON documents with what `dunkelva diff` has to do with them, by RFC 8259 and
by its own rules."""

WIDE = "1" + "0" * 30
NO_JSON, TWICE = "not valid JSON", "an object has a name twice"
NO_OBJECT, NO_ID = "not a JSON object", 'the key "id" is missing'
TOO_WIDE = "an exponent has more than 30 digits"
BEHIND = ": the document ends before this, and each has a line of its own"


def nested(depth, inside=b""):
    """Returns a document that nests so deep, by arrays and objects in turn."""
    text, ends = b'{"id":1,"a":', b"}"
    for level in range(1, depth):
        text, ends = text + (b"[", b'{"b":')[level % 2], (b"]", b"}")[level % 2] + ends
    # an object that stays empty has no name either
    if inside or depth == 1:
        return text + (inside or b"0") + ends
    return (text.removesuffix(b'"b":')) + ends


def members(count, *more):
    """Returns a document with so many members, and more."""
    return b'{"id":1,%s}' % b",".join([*(b'"m%d":%d' % (n, n) for n in range(count)), *more])


# values that are no JSON, each the value of a member
BAD_VALUES = (b"", b"NaN", b"Infinity", b"-Infinity", b"nan", b"01", b"-01", b"00", b"1.", b".5",
              b"-.5", b"1.e5", b"1e", b"1e+", b"1E-", b"1e1.5", b"+1", b"-", b"--1", b"- 1",
              b"0x10", b"1_0", b"1e5e5", b"1 2", b"1a", b"\xef\xbc\x91", b"True", b"TRUE", b"nul",
              b"nulll", b"None", b"undefined", b"truefalse", b"'a'", b"a", b"[1,]", b"[,]", b"[,1]",
              b"[1,,2]", b"[1 2]", b"[1}", b"[", b"]", b"[1", b"{", b"}", b'{"a"}', b'{"a":}',
              b'{"a":1,}', b'{,}', b'{,"a":1}', b'{"a":1,,"b":2}', b'{"a":1 "b":2}',
              b'{"a":1;"b":2}', b'{"a",1}', b"{1:2}", b"{null:2}", b"{a:1}", b"{'a':1}", b'{"a":1]',
              b'"', b'"a', b'"a\\"', b'"\\"', b'"\\a"', b'"\\x41"', b'"\\0"', b"\"\\'\"",
              b'"\\U0041"', b'"\\u"', b'"\\u12"', b'"\\u123"', b'"\\u12G4"', b'"\\u+123"',
              b'"\\u 123"', b'"\\u-001"', b'"\\u00_1"', b'"\\ud800"', b'"\\udbff"', b'"\\udc00"',
              b'"\\udfff"', b'"\\uD800a"', b'"\\ud800\\u0041"', b'"\\ud800\\n"', b'"\\ud800\\"',
              b'"\\ud800\\ud800\\udc00"', b'"\\udc00\\ud800"', b'"\\ud83d\\ude00\\ude00"',
              b'{"\\ud800":1}', b"1 // one", b"1 /* one */", b"# one", b"\x0b1", b"\x0c1",
              b"\xc2\xa01", b"\xe2\x80\xa81", b"\xef\xbb\xbf1", b"\0", b"1\0", b'"a""b"',
              b'"a" "b"', b"[1]2", b"{}{}", *(b'"%c"' % byte for byte in range(32) if byte != 10),
              b'{"\t":1}', b'"\\\t"', b'"\x80"', b'"\xbf"', b'"\xff"', b'"\xfe"', b'"\xc0\x80"',
              b'"\xc1\xbf"', b'"\xc2"', b'"\xe0\x80\x80"', b'"\xe0\x9f\xbf"', b'"\xed\xa0\x80"',
              b'"\xed\xbf\xbf"', b'"\xed\xa0\xbd\xed\xb8\x80"', b'"\xe6\x97"',
              b'"\xf0\x8f\xbf\xbf"', b'"\xf4\x90\x80\x80"', b'"\xf5\x80\x80\x80"',
              b'"\xf0\x9f\x98"', b'"\\u00\xff1"')

# lines that are no document with the key id, and what is said of them after their number
FAULTS = (
    *((b'{"id":1,"a":%s}' % value, NO_JSON) for value in BAD_VALUES),
    *((line, NO_JSON) for line in (
        b"", b" ", b"\r", b"\t \r", b"{", b"}", b'{"id":1', b'"id":1', b'{"id":1}}', b'{"id":1},',
        b'{"id":1};', b'{"id":1}x', b'{"id":1}{"id":2}', b'{"id":1} {"id":2}', b'{"id":1}\0',
        b'\0{"id":1}', b'{"id":1}\x1a', b'\xef\xbb\xbf{"id":1}', b'{"id":1}\xef\xbb\xbf',
        b'\xff\xfe{\0', b'\x1e{"id":1}', b'{"id":1,}', b'{,"id":1}', b'{"id" 1}', b'{"id"::1}',
        b'{"id":1}\x0c', b'\xc2\x85{"id":1}', b'{"id":1}\xff', b'[{"id":1}', b"id", b"// a",
        b'{"id":1\x0b}', b'{"id"\0:1}', nested(129), nested(129, b"1"), nested(130), nested(10_000),
        b'{"id":' + b"[" * 100_000, b"[" * 129 + b"]" * 129, b'{"a":' * 50_000, members(70, b"0"))),
    *((line, NO_OBJECT) for line in (
        b"[]", b"1", b'"id"', b"null", b"true", b'[{"id":1}]', b" -0.5e3 ",
        b"[" * 128 + b"]" * 128)),
    *((line, TWICE) for line in (
        b'{"id":1,"id":1}', b'{"id":1,"id":2}', b'{"a":1,"id":1,"a":1}',
        b'{"id":1,"a":{"b":1,"c":2,"b":1}}', b'{"id":1,"a":[0,{"b":1,"b":null}]}',
        b'{"id":1,"a":1,"\\u0061":2}', b'{"id":1,"\\u0069d":1}', b'{"id":1,"":1,"":2}',
        b'{"id":1,"\xf0\x9f\x98\x80":1,"\\uD83D\\ude00":1}', b'{"id":1,"\\n":1,"\\u000a":1}',
        b'{"id":1,"/":1,"\\/":1}', b'{"id":1,"\\u0000":1,"\\u0000":1}',
        b'{"id":1,"\xc3\xa9":1,"\\u00E9":1}', b'{"id":{"a":1,"a":1}}',
        nested(127, b'{"c":1,"c":1}'), members(70, b'"m3":0'), members(1000, b'"m\\u0035":0'),
        members(64, b'"m0":0'))),
    *((line, TOO_WIDE) for line in (
        *(b'{"id":1,"a":%s}' % it.encode() for it in (
            f"1e{WIDE}", f"1e+{WIDE}", f"-1.5E-{WIDE}", f"0e{WIDE}", f"-0.0e-{WIDE}",
            f"1e000{WIDE}", "1e" + "9" * 31, "1e" + "1" * 5000,
            f'[{{"b":1e{WIDE}}}]')), b'{"id":1e%s}' % WIDE.encode())),
    *((line, NO_ID) for line in (
        b"{}", b" { } ", b'{"a":{"id":1}}', b'{"ID":1}', b'{"id ":1}', b'{"":1}', b'{"i":{"d":1}}',
        b'{"id\\u0000":1}', b'{"\\"id\\"":1}')),
)

# lines that are no document with the key id, the column of the fault, if it has one, and the
# message
COLUMNS = (
    (b"", 1, NO_JSON), (b"  \r", 4, NO_JSON), (b"{", 2, NO_JSON), (b'{"id":1', 8, NO_JSON),
    (b'{"id":1,}', 9, NO_JSON), (b'{"id":1,', 9, NO_JSON), (b'{"id":1, ', 10, NO_JSON),
    (b'{"id":01}', 7, NO_JSON), (b'{"id":1}}', 9, NO_JSON), (b'{"id":1} , {}', 10, NO_JSON),
    (b'{"id":[1,2}', 11, NO_JSON), (b'{"id":"a\\x"}', 7, NO_JSON), (b'{"id" 1}', 2, NO_JSON),
    (b'{"id"::1}', 7, NO_JSON), (b'{"id":1 "a":2}', 9, NO_JSON), (b'{"id":1,2}', 9, NO_JSON),
    (b'{"id":{"a":}}', 12, NO_JSON), (b'{"id":"a":1}', 7, NO_JSON), (b'{"id":["a":1]}', 8, NO_JSON),
    (b"[1}", 1, NO_JSON), (b"nul", 1, NO_JSON), (b"\xef\xbb\xbf{}", 1, NO_JSON),
    (b'{"id":"\xff"}', 8, NO_JSON), (b'{"\xc3\xa9\xf0\x9f\x98\x80":}', 7, NO_JSON),
    (b'{"\xc3\xa9":"\xe6\x97"}', 7, NO_JSON), (nested(129), nested(129).rindex(b"[") + 1, NO_JSON),
    (b" [1]", 2, NO_OBJECT), (b"1", 1, NO_OBJECT),
    (b'{"id":1,"\xc3\xa9":2,"id":1,"\xc3\xa9":2}', 15, TWICE),
    (b'{"id":{"a":1,"b":{"a":1},"\\u0061":1}}', 26, TWICE),
    (b'{"id":1e1, "a":[2, 1e1%s]}' % (b"0" * 30), 20, TOO_WIDE), (b'{"ID":1}', None, NO_ID),
)

# lines that are documents
GOOD = (
    b'{"id":1}', b' \t\r{ \t\r"id" \t\r: \t\r1 \t\r} \t\r', b'{"id":null}', b'{"id":{}}',
    b'{"id":[]}', b'{"i\\u0064":1}', nested(127), nested(128), nested(127, b"[]"),
    nested(128, b"1"), nested(128, b'"a"'), members(70), members(1000),
    b'{"id":1e%s}' % (b"9" * 30), b'{"id":-1.5E-%s}' % (b"9" * 30),
    b'{"id":0e%s%s}' % (b"0" * 50, b"9" * 30), b'{"id":1e%s}' % (b"0" * 5000),
    b'{"id":%s}' % (b"9" * 5000), b'{"id":0.%s1}' % (b"0" * 5000), b'{"id":-0}', b'{"id":-0.0e-0}',
    b'{"id":0E+00}', b'{"id":"\\u0000\\u001F\\u007f\x7f\xc2\x80"}',
    b'{"id":"\\"\\\\\\/\\b\\f\\n\\r\\t/"}',
    b'{"id":"\\uDBFF\\uDFFF\xf4\x8f\xbf\xbf\\ud800\\udc00\\uFFFF\xef\xbf\xbf\xef\xbf\xbe\\uE000"}',
    b'{"id":1,"\xc3\xa9":1,"e\xcc\x81":1}',
    b'{"id":1,"a":1,"A":1,"":1," ":1,"\\u0000":1,"\\u0000\\u0000":1}',
    b'{"id":1,"a":{"id":1,"a":{"id":1}},"b":[{"id":1},{"id":1}]}', b'{"id":"\xef\xbb\xbf"}',
    b'{"id":"%s"}' % (b"a" * 100_000), b'{"id":[[],{},"",0,null,true,false]}',
    b'{"id":"\\ud83d\\ude00"}', b'{"id":"\xe2\x80\xa8\xe2\x80\xa9"}',
)

# values that are the same
SAME = (
    (b"1", b"1.0"), (b"1", b"1e0"), (b"1", b"10E-1"), (b"1", b"0.1e+1"), (b"1", b"0.0001e00004"),
    (b"100", b"1e2"), (b"0", b"-0"), (b"0", b"-0.000e-5"), (b"0", b"0e%s" % (b"9" * 30)),
    (b"-1.50", b"-15E-1"), (b"1e%s" % (b"9" * 30), b"10e%s8" % (b"9" * 29)),
    (b"10e%s" % (b"9" * 29), b"1e1" + b"0" * 29), (b"9" * 400 + b"0", b"9." + b"9" * 399 + b"e400"),
    (b"1e-3", b"0.001"), (b"1e5", b"1e%s5" % (b"0" * 100)), (b'"a"', b'"\\u0061"'),
    (b'"/"', b'"\\/"'), (b'"\\n"', b'"\\u000A"'), (b'"\\ud83d\\ude00"', b'"\xf0\x9f\x98\x80"'),
    (b'"\\u00E9"', b'"\xc3\xa9"'), (b'"\x7f"', b'"\\u007F"'),
    (b'{"a":1,"b":2}', b'{"b":2,"a":1.0}'),
    (b'{"a":1,"\\u0062":2}', b' {\t"b" : 2 , "\\u0061" : 1 }\r'), (b"[]", b"[ ]"),
    (b"{}", b"{\r\t }"), (b'[{"a":[1]},-0]', b'[ {"a" : [1.0] } , 0 ]'),
)

# values that differ, and the line printed for a member a with them
DIFFERENT = (
    (b"1", b'"1"', 'a 1 -> "1"'), (b"0", b"null", "a 0 -> null"), (b"0", b"false", "a 0 -> false"),
    (b'""', b"null", 'a "" -> null'), (b"[]", b"{}", "a [] -> {}"),
    (b"[]", b"null", "a [] -> null"), (b"[0]", b'{"0":0}', 'a [0] -> {"0":0}'),
    (b"1", b"[1]", "a 1 -> [1]"), (b"1.0", b"-1.0", "a 1.0 -> -1.0"),
    (b"true", b'"true"', 'a true -> "true"'),
    (b"9007199254740992", b"9007199254740993", "a 9007199254740992 -> 9007199254740993"),
    (b"0.1", b"0.1000000000000000055511151231257827",
     "a 0.1 -> 0.1000000000000000055511151231257827"),
    (b"1e400", b"1e401", "a 1e400 -> 1e401"), (b"1e-400", b"0", "a 1e-400 -> 0"),
    (b"1E+0", b"10E+00", "a 1E+0 -> 10E+00"),
    (b"1e%s" % (b"9" * 30), b"2e%s" % (b"9" * 30), f"a 1e{'9' * 30} -> 2e{'9' * 30}"),
    (b'"a"', b'"A"', 'a "a" -> "A"'), (b'"\xc3\xa9"', b'"e\xcc\x81"', 'a "é" -> "e\u0301"'),
    (b'"a"', b'"a "', 'a "a" -> "a "'), (b'"a"', b'"a\\u0000"', 'a "a" -> "a\\u0000"'),
    (b'"\\/\\u0041"', b'"\\/"', 'a "/A" -> "/"'),
    (b'"\x7f"', b'"\xc2\x9b"', 'a "\\u007f" -> "\\u009b"'),
    (b'"\xc2\xa0"', b'"\\u009F"', 'a "\xa0" -> "\\u009f"'),
    (b'"\\b\\f\\n\\r\\t\\u0001\\u001F\\"\\\\"', b"1", r'a "\b\f\n\r\t\u0001\u001f\"\\" -> 1'),
    (b'"\\ud83d\\ude00"', b'"\\u0022"', 'a "😀" -> "\\""'),
    (b"[1,2,3]", b"[1,3]", "a[1] 2 -> 3, a[2] 3 -> missing"),
    (b"[]", b"[null]", "a[0] missing -> null"),
    (b"[1]", b"[1,[ ],{ }]", "a[1] missing -> [], a[2] missing -> {}"),
    (b"[[1]]", b"[[2]]", "a[0][0] 1 -> 2"), (b'{"b":null}', b"{}", "a.b null -> missing"),
    (b"{}", b'{"b":null}', "a.b missing -> null"),
    (b'{"x":1,"b":2,"c":3}', b'{"d":4,"c":5,"B":6}',
     "a.x 1 -> missing, a.b 2 -> missing, a.c 3 -> 5, a.d missing -> 4, a.B missing -> 6"),
    (b'{"b":{"c":{"d":[{"e":1}]}}}', b'{"b":{"c":{"d":[{"e":2}]}}}', "a.b.c.d[0].e 1 -> 2"),
    (b'{"":1}', b'{"":2}', 'a."" 1 -> 2'), (b'{"b.c":1}', b'{"b.c":2}', 'a."b.c" 1 -> 2'),
    (b'{"[0]":1}', b'{"[0]":2}', 'a."[0]" 1 -> 2'), (b'{"\\"":1}', b'{"\\"":2}', r'a."\"" 1 -> 2'),
    (b'{"\\\\":1}', b'{"\\\\":2}', r'a."\\" 1 -> 2'),
    (b'{"\\u0000":1}', b'{"\\u0000":2}', r'a."\u0000" 1 -> 2'),
    (b'{"\x7f":1}', b'{"\x7f":2}', r'a."\u007f" 1 -> 2'),
    (b'{"\xc2\x9b":1}', b'{"\xc2\x9b":2}', r'a."\u009b" 1 -> 2'),
    (b'{"\xc3\xa9":1}', b'{"\xc3\xa9":2}', 'a."é" 1 -> 2'),
    (b'{"\xc3\xa9":1}', b'{"e\xcc\x81":1}', 'a."é" 1 -> missing, a."e\u0301" missing -> 1'),
    (b'{" ":1}', b'{" ":2}', 'a." " 1 -> 2'), (b'{"A-z_0":1}', b'{"A-z_0":2}', "a.A-z_0 1 -> 2"),
    (b'{"0":1}', b'{"0":2}', "a.0 1 -> 2"), (b'{"-":1}', b'{"-":2}', "a.- 1 -> 2"),
    (b'{"\\u0062":{ "c" : [ 1.50 , "\\u0041" ] }}', b"{}", 'a.b {"c":[1.50,"A"]} -> missing'),
    (b'{"z":{"y":1,"x":-0.0}}', b'{"z":0}', 'a.z {"y":1,"x":-0.0} -> 0'),
)

# options, two numbers, and whether their difference, as members a, is printed
CLOSE = (
    (["--tolerance", "a=0.01"], "0.30", "0.31", False),
    (["--tolerance", "a=0.01"], "0.31", "0.3", False),
    (["--tolerance", "a=1e-2"], "-0.30", "-0.31", False),
    (["--tolerance", "a=0.01"], "0.30", "0.31" + "0" * 40, False),
    (["--tolerance", "a=0.01"], "0.30", "0.31" + "0" * 40 + "1", True),
    (["--tolerance", "a=9.9e-3"], "0.3", "0.31", True),
    (["--tolerance", "a=1"], "9007199254740992", "9007199254740993", False),
    (["--tolerance", "a=0.9"], "9007199254740992", "9007199254740993", True),
    (["--tolerance", "a=2"], "1", "-1", False), (["--tolerance", "a=1.99"], "1", "-1", True),
    (["--tolerance", "a=0"], "1", "1.1", True), (["--tolerance", "a=0.0e9"], "1", "10e-1", False),
    (["--tolerance", "a=0"], "1e-999", "0", True),
    (["--tolerance", "a=1e-999"], "1e-999", "0", False),
    (["--tolerance", "a=1e%s" % ("9" * 30)], "1", "-1e" + "9" * 29 + "8", False),
    (["--tolerance", "a=1e%s" % ("9" * 30)], "-1", "1e" + "9" * 30, True),
    (["--tolerance", "a=1e%s" % ("9" * 30)], "1", "1e" + "9" * 30, False),
    (["--tolerance", "a=1"], "1", "1e" + "9" * 30, True),
    (["--tolerance", "a=1"], "1", "1e-" + "9" * 30, False),
    (["--tolerance", "a=1"], "-1e-" + "9" * 30, "1", True),
    (["--tolerance", "a=1e-%s" % ("9" * 30)], "1e-" + "9" * 30, "2e-" + "9" * 30, False),
    (["--tolerance", "a=1e-%s" % ("9" * 30)], "1" + "0" * 400, "1" + "0" * 399 + "1", True),
    (["--tolerance", "a=1"], "1" + "0" * 400, "9" * 400, False),
    (["--tolerance", "a=1"], "1" + "0" * 400, "9" * 399 + "8", True),
    (["--tolerance", "a=0.999999999999999999"], "0", "1", True),
    (["--tolerance", "a=0.999999999999999999"], "0", "0.999999999999999999", False),
    (["--tolerance", "a=0.1", "--tolerance", "a=0.2"], "1", "1.2", False),
    (["--tolerance", "a=0.2", "--tolerance", "a=0.1"], "1", "1.2", False),
    (["--tolerance", "a=0.1", "--tolerance", "b=0.2"], "1", "1.2", True),
    (["--tolerance", "b=0.1,a=0.2"], "1", "1.2", False),
    (["--tolerance", "b=0.2,a=0.1"], "1", "1.2", True),
    (["--tolerance", "a=0.1", "--relative-tolerance", "a=0.5"], "1", "2", False),
    (["--tolerance", "a=1", "--relative-tolerance", "a=0.1"], "1", "2", False),
    (["--relative-tolerance", "a=0.01"], "99", "100", False),
    (["--relative-tolerance", "a=0.01"], "100", "99", False),
    (["--relative-tolerance", "a=0.01"], "-99", "-100", False),
    (["--relative-tolerance", "a=0.01"], "98.99", "100", True),
    (["--relative-tolerance", "a=0.01"], "99", "-100", True),
    (["--relative-tolerance", "a=2"], "1", "-1", False),
    (["--relative-tolerance", "a=1.99"], "-1", "1", True),
    (["--relative-tolerance", "a=0.5"], "0", "1e-9", True),
    (["--relative-tolerance", "a=1"], "0", "1e-9", False),
    (["--relative-tolerance", "a=1"], "-1e-9", "0", False),
    (["--relative-tolerance", "a=0.999999999999999999"], "1e99", "0", True),
    (["--relative-tolerance", "a=1e-9"], "1e400", "1.000000001e400", False),
    (["--relative-tolerance", "a=1e-9"], "1e400", "1.0000000010000000010e400", False),
    (["--relative-tolerance", "a=1e-9"], "1e400", "1.0000000010000000011e400", True),
    (["--relative-tolerance", "a=1e-9"], "1e%s" % ("9" * 30), "1000000001e" + "9" * 28 + "90",
     False),
    (["--relative-tolerance", "a=1e-9"], "1e-%s" % ("9" * 30), "1.1e-" + "9" * 30, True),
)
# the same, as documents
TOLERANCES = (
    *((words, b'{"a":%s}' % left.encode(), b'{"a":%s}' % right.encode(),
       f"a {left} -> {right}" if told else None)
      for words, left, right, told in CLOSE),
    (["--tolerance", "a=1"], b'{"a":1}', b'{"a":"1"}', 'a 1 -> "1"'),
    (["--tolerance", "a=1"], b'{"a":0}', b'{"a":null}', "a 0 -> null"),
    (["--tolerance", "a=1"], b'{"a":0}', b"{}", "a 0 -> missing"),
    (["--tolerance", "a=1", "--missing-is-null"], b'{"a":0}', b"{}", "a 0 -> missing"),
    (["--tolerance", "a=1"], b'{"a":"1"}', b'{"a":"2"}', 'a "1" -> "2"'),
    (["--tolerance", "a[].p=0.1"], b'{"a":[{"p":1,"q":1}]}', b'{"a":[{"p":1.1,"q":1.1}]}',
     "a[0].q 1 -> 1.1"),
    (["--tolerance", "a=0.1"], b'{"a":[{"p":1},1]}', b'{"a":[{"p":1.1},0.9,2]}',
     "a[2] missing -> 2"),
    (["--tolerance", "a.b=1"], b'{"a":1}', b'{"a":2}', "a 1 -> 2"),
    (["--tolerance", "b=1"], b'{"a":1,"b":1}', b'{"a":2,"b":2}', "a 1 -> 2"),
    (["--tolerance", '."a=b"=1'], b'{"a=b":1}', b'{"a=b":2}', None),
    (["--tolerance", "a=b=1"], b'{"a=b":1}', b'{"a=b":2}', None),
    (["--tolerance", "b=1", "--only", "b"], b'{"a":1,"b":1}', b'{"a":2,"b":2}', None),
    (["--tolerance", "b=1", "--ignore", "a"], b'{"a":1,"b":1}', b'{"a":2,"b":3}', "b 1 -> 3"),
)

# rules, two documents, and the differences printed, or None
RULES = (
    (["--ignore", "a"], b'{"a":1,"b":1}', b'{"a":2,"b":2}', "b 1 -> 2"),
    (["--ignore", "a"], b'{"a":1}', b'{"a":2}', None),
    (["--ignore", "b"], b'{"a":1}', b'{"a":2}', "a 1 -> 2"),
    (["--ignore", "a"], b'{"a":1}', b"{}", None), (["--ignore", "a"], b"{}", b'{"a":1}', None),
    (["--ignore", "a"], b'{"a":{"b":1}}', b'{"a":{"b":2}}', None),
    (["--ignore", "a.b"], b'{"a":{"b":1,"c":1}}', b'{"a":{"b":2,"c":2}}', "a.c 1 -> 2"),
    (["--ignore", "a.b"], b'{"a":{"b":1}}', b"{}", 'a {"b":1} -> missing'),
    (["--ignore", "a.b"], b'{"a":{"b":1}}', b'{"a":[1]}', 'a {"b":1} -> [1]'),
    (["--ignore", "a"], b'{"ab":1}', b'{"ab":2}', "ab 1 -> 2"),
    (["--ignore", "a[1]"], b'{"a":[1,2,3]}', b'{"a":[2,3,4]}', "a[0] 1 -> 2, a[2] 3 -> 4"),
    (["--ignore", "a[2]"], b'{"a":[1,2]}', b'{"a":[1,2,3]}', None),
    (["--ignore", "a[]"], b'{"a":[1]}', b'{"a":[2,3]}', None),
    (["--ignore", "a[]"], b'{"a":{"0":1,"[]":1}}', b'{"a":{"0":2,"[]":2}}',
     'a.0 1 -> 2, a."[]" 1 -> 2'),
    (["--ignore", 'a."[]"'], b'{"a":{"[]":1}}', b'{"a":{"[]":2}}', None),
    (["--ignore", "a.0"], b'{"a":[1]}', b'{"a":[2]}', "a[0] 1 -> 2"),
    (["--ignore", "a[]"], b'{"a":[1]}', b'{"a":1}', "a [1] -> 1"),
    (["--ignore", "a[].p"], b'{"a":[{"p":1,"q":1},{"p":1}]}', b'{"a":[{"p":2,"q":2},{"p":2}]}',
     "a[0].q 1 -> 2"),
    (["--ignore", "a[].p"], b'{"a":[]}', b'{"a":[{"p":2}]}', 'a[0] missing -> {"p":2}'),
    (["--ignore", "a[][1]"], b'{"a":[[1,1],[1,1]]}', b'{"a":[[1,2],[2,1]]}', "a[1][0] 1 -> 2"),
    (["--ignore", "a,b.c"], b'{"a":1,"b":{"c":1},"d":1}', b'{"a":2,"b":{"c":2},"d":2}', "d 1 -> 2"),
    (["--ignore", "a", "--ignore", "b.c"], b'{"a":1,"b":{"c":1},"d":1}',
     b'{"a":2,"b":{"c":2},"d":2}', "d 1 -> 2"),
    (["--ignore", r'."a\u002cb"'], b'{"a,b":1,"a":1}', b'{"a,b":2,"a":2}', "a 1 -> 2"),
    (["--ignore", '."a,b",c'], b'{"a,b":1,"c":1,"a":1}', b'{"a,b":2,"c":2,"a":2}', "a 1 -> 2"),
    (["--ignore", r'c,."\",b"'], b'{"\\",b":1,"c":1,"a":1}', b'{"\\",b":2,"c":2,"a":2}',
     "a 1 -> 2"),
    (["--only", 'c,."a,b"'], b'{"a,b":1,"a":1}', b'{"a,b":2,"a":2}', '."a,b" 1 -> 2'),
    (["--ignore", '."a.b"'], b'{"a.b":1,"a":{"b":1}}', b'{"a.b":2,"a":{"b":2}}', "a.b 1 -> 2"),
    (["--ignore", '.""'], b'{"":1,"a":{"":1}}', b'{"":2,"a":{"":2}}', 'a."" 1 -> 2'),
    (["--ignore", "é"], b'{"\xc3\xa9":1,"e\xcc\x81":1}', b'{"\xc3\xa9":2,"e\xcc\x81":2}',
     '."e\u0301" 1 -> 2'),
    (["--only", "a"], b'{"a":1,"b":1}', b'{"a":2,"b":2}', "a 1 -> 2"),
    (["--only", "b"], b'{"a":1}', b'{"a":2}', None),
    (["--only", "a.b"], b'{"a":{"b":1,"c":1},"d":1}', b'{"a":{"b":2,"c":2},"d":2}', "a.b 1 -> 2"),
    (["--only", "a"], b'{"a":{"b":1,"c":1},"d":1}', b'{"a":{"b":2,"c":2},"d":2}',
     "a.b 1 -> 2, a.c 1 -> 2"),
    (["--only", "a.b"], b'{"a":{"c":1}}', b"{}", 'a {"c":1} -> missing'),
    (["--only", "a.b"], b'{"a":1}', b'{"a":2}', "a 1 -> 2"),
    (["--only", "a[].p"], b'{"a":[{"p":1,"q":1}]}', b'{"a":[{"p":2,"q":2},1]}',
     "a[0].p 1 -> 2, a[1] missing -> 1"),
    (["--only", "c,a"], b'{"a":1,"b":1,"c":1}', b'{"a":2,"b":2,"c":2}', "a 1 -> 2, c 1 -> 2"),
    (["--only", "a", "--ignore", "a.b"], b'{"a":{"b":1,"c":1}}', b'{"a":{"b":2,"c":2}}',
     "a.c 1 -> 2"),
    (["--only", "a.b", "--ignore", "a"], b'{"a":{"b":1}}', b'{"a":{"b":2}}', None),
    (["--only", "[0]"], b'{"0":1}', b'{"0":2}', None),
    (["--missing-is-null"], b'{"a":null,"b":1}', b'{"b":null}', "b 1 -> null"),
    (["--missing-is-null"], b"{}", b'{"a":null}', None),
    (["--missing-is-null"], b'{"a":1}', b"{}", "a 1 -> missing"),
    (["--missing-is-null"], b'{"a":false}', b"{}", "a false -> missing"),
    (["--missing-is-null"], b'{"a":[1,null]}', b'{"a":[1]}', None),
    (["--missing-is-null"], b'{"a":[null,1]}', b'{"a":[1]}', "a[0] null -> 1, a[1] 1 -> missing"),
    (["--missing-is-null"], b'{"a":{"b":null}}', b'{"a":{}}', None),
    (["--missing-is-null"], b'{"a":{"b":null}}', b"{}", 'a {"b":null} -> missing'),
    (["--missing-is-null"], b'{"a":null}', b'{"a":{"b":null}}', 'a null -> {"b":null}'),
    (["--missing-is-null", "--only", "a"], b'{"b":1,"a":null}', b'{"b":2}', None),
    (["--missing-is-null", "--ignore", "b"], b'{"b":1,"a":null,"c":null}', b'{"b":2,"c":""}',
     'c null -> ""'),
    *TOLERANCES,
)

# options, both files, the status, and what is printed, or said with status 2
FILES = (
    ([], b"", b"", 0, "0 changed, 0 removed, 0 added, 0 the same."),
    (["--key", "id"], b"", b'{"id":1}', 1,
     "+ id=1  right.ndjson line 1\n0 changed, 0 removed, 1 added, 0 the same."),
    ([], b"", b'{"id":1}', 1,
     "+ row 1  right.ndjson line 1\n0 changed, 0 removed, 1 added, 0 the same."),
    ([], b'{"id":1}', b'{"id":1}\n', 0, "0 changed, 0 removed, 0 added, 1 the same."),
    ([], b'{"id":1}\r\n{}\r\n', b'{"id":1}\n{}', 0, "0 changed, 0 removed, 0 added, 2 the same."),
    ([], b"{}\n{}\n", b"{}\n", 1,
     "- row 2  left.ndjson line 2\n0 changed, 1 removed, 0 added, 1 the same."),
    ([], b'{"a":1}\n{"a":2}\n', b'{"a":2}\n{"a":1}\n', 1,
     "~ row 1  a 1 -> 2\n~ row 2  a 2 -> 1\n2 changed, 0 removed, 0 added, 0 the same."),
    ([], b"\n", b"", 2,
     "left.ndjson: line 1, column 1: not valid JSON: the line is empty: remove it, as grep . does"),
    ([], b"{}\n\n", b"{}\n", 2,
     "left.ndjson: line 2, column 1: not valid JSON: the line is empty: remove it, as grep . does"),
    ([], b"{}\n", b"{}\n\n{}\n", 2,
     "right.ndjson: line 2, column 1: not valid JSON: the line is empty: remove it, as grep "
     ". does"),
    ([], b"{}\n", b"{}\r\n\r\n", 2,
     "right.ndjson: line 2, column 2: not valid JSON: the line is empty: remove it, as grep "
     ". does"),
    ([], b"{}\n", b"{}\n \t\r\n", 2,
     "right.ndjson: line 2, column 4: not valid JSON: the line is empty: remove it, as grep "
     ". does"),
    ([], b"{}\n", b"{}\n\x0b\n", 2, "right.ndjson: line 2, column 1: not valid JSON"),
    # numbers that other programs write
    ([], b'{"a":+1}\n', b"", 2,
     "left.ndjson: line 1, column 6: not valid JSON: JSON has no + before a number"),
    ([], b'{"a":[.5]}\n', b"", 2,
     "left.ndjson: line 1, column 7: not valid JSON: JSON has a digit before the point, as 0.5"),
    ([], b'{"a":-.5}\n', b"", 2,
     "left.ndjson: line 1, column 6: not valid JSON: JSON has a digit before the point, as 0.5"),
    ([], b'{"a":01}\n', b"", 2,
     "left.ndjson: line 1, column 6: not valid JSON: JSON has no zero before other digits of a "
     "number"),
    ([], b'{"a":0x10}\n', b"", 2, "left.ndjson: line 1, column 6: not valid JSON"),
    ([], b'{"a":"[]\\"{","b":' + 128 * b"[" + 128 * b"]" + b"}\n", b"", 2,
     "left.ndjson: line 1, column 145: not valid JSON: documents nest at most 128 deep"),
    ([], b'{"a":NaN}\n', b"", 2, "left.ndjson: line 1, column 6: not valid JSON: JSON has no NaN"),
    ([], b"{}\n", b'{"a":1}\n{"\xc3\xa9":[1, Infinity]}\n', 2,
     "right.ndjson: line 2, column 10: not valid JSON: JSON has no Infinity"),
    ([], b"{}\n", b'{"a":-Infinity}\n', 2,
     "right.ndjson: line 1, column 6: not valid JSON: JSON has no -Infinity"),
    ([], b"{}\n", b'{"a":nan}\n', 2, "right.ndjson: line 1, column 6: not valid JSON"),
    # slips of hands and of other programs
    ([], b"{'a':1}\n", b"", 2,
     "left.ndjson: line 1, column 2: not valid JSON: JSON has double quotes, not single ones"),
    ([], b"{}\n", b'{"a":True}\n', 2,
     "right.ndjson: line 1, column 6: not valid JSON: JSON has true, not True"),
    ([], b"{}\n", b'{"a":[1, None]}\n', 2,
     "right.ndjson: line 1, column 10: not valid JSON: JSON has null, not None"),
    ([], b'{"a":1,}\n', b"", 2,
     "left.ndjson: line 1, column 8: not valid JSON: no comma may stand before } or ]"),
    ([], b'{"a":[1, ]}\n', b"", 2,
     "left.ndjson: line 1, column 10: not valid JSON: no comma may stand before } or ]"),
    ([], b'{"a":1}{"a":2}\n', b"", 2, "left.ndjson: line 1, column 8: not valid JSON" + BEHIND),
    ([], b'{"a":1} # one\n', b"", 2, "left.ndjson: line 1, column 9: not valid JSON" + BEHIND),
    ([], b"{}\n{id:1}\n", b"", 2,
     "left.ndjson: line 2, column 2: not valid JSON: a name stands in double quotes"),
    ([], b'{}\n{"a":1, b_2 : 1}\n', b"", 2,
     "left.ndjson: line 2, column 9: not valid JSON: a name stands in double quotes"),
    ([], b"{}\n// one\n", b"", 2,
     "left.ndjson: line 2, column 1: not valid JSON: JSON has no comments"),
    ([], b'{"a":"b}\n', b"", 2,
     "left.ndjson: line 1, column 6: not valid JSON: the string never ends"),
    ([], b'{}\n{"a":1,\r\n', b"", 2,
     "left.ndjson: line 2, column 9: not valid JSON: the line ends before the document does"),
    ([], b'{}\n{"a":"caf\xe9"}\n', b"", 2,
     "left.ndjson: line 2, column 10: not valid JSON: the line is not UTF-8: convert the file, as "
     "in "
     "<(iconv -f LATIN1 -t UTF-8 FILE)"),
    # paths of keys that are nearly those of parts
    (["--key", "order.idd"], b'{"order":{"day":1,"id":1},"n":1}\n', b"", 2,
     'left.ndjson: line 1: the key "order.idd" is missing: did you mean "order.id"? The document '
     'has "order", "n"'),
    (["--key", "nte"], b'{"date":1,"note":2}\n', b"", 2,
     'left.ndjson: line 1: the key "nte" is missing: did you mean "note"? The document has '
     '"date", "note"'),
    (["--key", "Order.ID"], b'{"order":{"id":1}}\n', b"", 2,
     'left.ndjson: line 1: the key "Order.ID" is missing: did you mean "order.id"? The document '
     'has "order"'),
    (["--key", "order.day"], b'{"order":{"id":1}}\n', b"", 2,
     'left.ndjson: line 1: the key "order.day" is missing: the document has "order"'),
    # files that are no lines of documents
    ([], b'[{"a":1},{"a":2}]\n', b"", 2,
     "left.ndjson: line 1, column 1: not a JSON object: the file begins with a list: "
     "jq -c '.[]' makes a line of each item"),
    ([], b"{}\n", b' [\n{"a":1}\n]\n', 2,
     "right.ndjson: line 1, column 2: not valid JSON: the file begins with a list: "
     "jq -c '.[]' makes a line of each item"),
    ([], b"{}\n", b"{}\n[1]\n", 2, "right.ndjson: line 2, column 1: not a JSON object"),
    ([], b'{\r\n  "a": 1\r\n}\r\n', b"", 2,
     "left.ndjson: line 1, column 3: not valid JSON: the file has documents of many "
     "lines: jq -c . makes a line of each"),
    ([], b'\xef\xbb\xbf{"a":1}\n', b"", 2,
     "left.ndjson: line 1, column 1: not valid JSON: the file begins with a byte order "
     "mark: remove it, as tail -c +4 does"),
    ([], b"{}\n", b'{}\n\xef\xbb\xbf{"a":1}\n', 2,
     "right.ndjson: line 2, column 1: not valid JSON"),
    # a packed file is refused before the files are read
    ([], b"\x1f\x8b\x08\0", b"{}\n", 2,
     "left.ndjson: it is compressed by gzip: unpack it, as in <(zcat FILE)"),
    ([], b"x\n", b"\x1f\x8b\x08\0", 2,
     "right.ndjson: it is compressed by gzip: unpack it, as in <(zcat FILE)"),
    ([], b"{}\r{}\n", b"", 2, "left.ndjson: line 1, column 4: not valid JSON" + BEHIND),
    ([], b'{"a":\n1}\n', b"", 2,
     "left.ndjson: line 1, column 6: not valid JSON: the line ends before the document does"),
    ([], b"\xef\xbb\xbf", b"", 2,
     "left.ndjson: line 1, column 1: not valid JSON: the file begins with a byte order mark: "
     "remove it, as tail -c +4 does"),
    ([], b"{}\n{}\0", b"", 2, "left.ndjson: line 2, column 3: not valid JSON" + BEHIND),
    (["--key", "id"], b'{"id":1.0,"a":1}\n{"id":"1","a":2}\n{"id":null,"a":3}\n',
     b'{"id":null,"a":3}\n{"id":"1","a":0}\n{"id":1e0,"a":1}', 1,
     '~ id="1"  a 2 -> 0\n1 changed, 0 removed, 0 added, 2 the same.'),
    (["--key", "id"],
     b'{"id":1200}\n{"id":1.50}\n{"id":-0.0}\n{"id":9.5}\n{"id":-0.05}\n{"id":12e-1}\n', b"", 1,
     "".join(f"- id={it}  left.ndjson line {n}\n"
             for n, it in enumerate(("1200", "1.5", "0", "9.5", "-0.05", "1.2"), 1))
     + "0 changed, 6 removed, 0 added, 0 the same."),
    # numbers of keys without an exponent, up to 20 tens
    (["--key", "id"],
     b'{"id":1e20}\n{"id":-1.0e21}\n{"id":0.1e-19}\n{"id":1e-21}\n{"id":123e-3}\n{"id":123e-4}\n',
     b"", 1,
     "".join(f"- id={it}  left.ndjson line {n}\n"
             for n, it in enumerate(
                 ("100000000000000000000", "-1e21", "0.00000000000000000001", "1e-21", "0.123",
                  "0.0123"), 1))
     + "0 changed, 6 removed, 0 added, 0 the same."),
    (["--key", "id"],
     b'{"id":12345678901234567890123456789012345678900}\n{"id":1%s}\n{"id":[10,0.50]}\n'
     b'{"id":"1e1"}\n' % (b"0" * 21),
     b'{"id":1e1%s}\n' % (b"0" * 20), 1,
     "- id=12345678901234567890123456789012345678900  left.ndjson line 1\n"
     "- id=1e21  left.ndjson line 2\n"
     '- id=[1e1,5e-1]  left.ndjson line 3\n- id="1e1"  left.ndjson line 4\n'
     '+ id=1e100000000000000000000  right.ndjson line 1\n'
     "0 changed, 4 removed, 1 added, 0 the same."),
    (["--key", "id", "--format", "json"], b'{"id":12e2,"a":1}\n',
     b'{"id":1200.0,"a":2}\n{"id":-25e-2}\n', 1,
     '{"kind":"changed","key":{"id":1200},"left_line":1,"right_line":1,"changes":[{"path":"a",'
     '"left":1,"right":2}]}\n'
     '{"kind":"added","key":{"id":-0.25},"line":2}\n'
     '{"kind":"counts","changed":1,"removed":0,"added":1,"same":0,"not_shown":0}'),
    (["--key", "id"], b'{"id":{"b":[1.0,"\\u0041"],"a":null,"":{ }}}\n',
     b'{"id":{"":{},"a":null,"b":[1,"A"]},"n":1}\n', 1,
     '~ id={"":{},"a":null,"b":[1,"A"]}  n missing -> 1\n'
     "1 changed, 0 removed, 0 added, 0 the same."),
    (["--key", "id"],
     b'{"id":{"\xf4\x8f\xbf\xbf":1,"\xee\x80\x80":{"b":[ ],"B":-0},"Z":"\\u009f"}}\n', b"", 1,
     '- id={"Z":"\\u009f","\ue000":{"B":0,"b":[]},"\U0010ffff":1}  left.ndjson line 1\n'
     "0 changed, 1 removed, 0 added, 0 the same."),
    (["--key", "id"], b'{"id":1,"a":1}\n{"id":1,"a":2}\n{"id":1.0,"a":3}\n',
     b'{"id":1,"a":1}\n{"id":10e-1,"a":3}\n', 1,
     "~ id=1  a 2 -> 3\n- id=1  left.ndjson line 3\n1 changed, 1 removed, 0 added, 1 the same."),
    # lines that are equal on both sides, and keys that come twice
    (["--key", "id"], b'{"id":1,"a":1}\n{"id":1,"a":1}\n{"id":1,"a":2}\n',
     b'{"id":1,"a":2}\n{"id":1,"a":1}\n{"id":1,"a":1}\n', 1,
     "~ id=1  a 1 -> 2\n~ id=1  a 2 -> 1\n2 changed, 0 removed, 0 added, 1 the same."),
    (["--key", "id"], b'{"id":2}\n{"id":1}\n', b'{"id":1}\n{"id":1}\n{"id":2}\n{"id":2}\n', 1,
     "+ id=1  right.ndjson line 2\n+ id=2  right.ndjson line 4\n"
     "0 changed, 0 removed, 2 added, 2 the same."),
    (["--unique", "--key", "id"], b'{"id":1}\n{"id":2}\n', b'{"id":2}\n{"id":1}\n{"id":2}\n', 2,
     "right.ndjson: lines 1 and 3 have the same key: 2"),
    (["--key", "id"], b'{"id":1}\n', b'{"id":1}\n{"id":1}x\n', 2,
     "right.ndjson: line 2, column 9: not valid JSON" + BEHIND),
    (["--key", "id"], b'{"id":2,"a":1}\n{"id":5}\n{"id":1,"a":1}\n{"id":4}\n',
     b'{"id":7}\n{"id":1,"a":2}\n{"id":6}\n{"id":2,"a":2}\n', 1,
     "~ id=2  a 1 -> 2\n~ id=1  a 1 -> 2\n- id=5  left.ndjson line 2\n- id=4  left.ndjson line 4\n"
     "+ id=7  right.ndjson line 1\n+ id=6  right.ndjson line 3\n"
     "2 changed, 2 removed, 2 added, 0 the same."),
    (["--key", "id", "--limit", "1"], b'{"id":1,"a":1}\n{"id":2}\n', b'{"id":1,"a":2}\n{"id":3}\n',
     1, "~ id=1  a 1 -> 2\n.. and 2 more\n1 changed, 1 removed, 1 added, 0 the same."),
    (["--limit", "1"], b'{"a":1}\n{"a":2}\n{"a":3}\n', b'{"a":0}\n{"a":0}\n', 1,
     "~ row 1  a 1 -> 0\n.. and 2 more\n2 changed, 1 removed, 0 added, 0 the same."),
    ([], b"{}\n" * 25, b"", 1, "".join(f"- row {n}  left.ndjson line {n}\n" for n in range(1, 21))
     + ".. and 5 more\n0 changed, 25 removed, 0 added, 0 the same."),
    (["--limit", "0"], b"", b"{}\n" * 25, 1,
     "".join(f"+ row {n}  right.ndjson line {n}\n" for n in range(1, 26))
     + "0 changed, 0 removed, 25 added, 0 the same."),
    (["--key", "id", "--summary"], b'{"id":1,"a":1}\n{"id":2}\n', b'{"id":1,"a":2}\n{"id":3}\n', 1,
     "1 changed, 1 removed, 1 added, 0 the same."),
    (["--summary", "--limit", "1", "--skip-bad"], b'{"a":1}\n[]\n', b'{"a":0}\n{"a":0}\n', 1,
     "1 changed, 0 removed, 1 added, 0 the same.\nSkipped 1 line of left.ndjson (line 2)."),
    (["--summary", "--format", "json"], b'{"a":1}\n', b'{"a":0}\n{"a":0}\n', 1,
     '{"kind":"counts","changed":1,"removed":0,"added":1,"same":0,"not_shown":2}'),
    (["--summary"], b'{"a":1}\n', b'{"a":1.0}\n', 0, "0 changed, 0 removed, 0 added, 1 the same."),
    (["--format", "json", "--limit", "2"], b'{"\x7f":1}\n{"\xc2\x9b":2}\n{"a":3}\n',
     b"{}\n{}\n{}\n", 1,
     '{"kind":"changed","key":{},"left_line":1,"right_line":1,"changes":[{"path":".\\"\\u007f\\"",'
     '"left":1}]}\n'
     '{"kind":"changed","key":{},"left_line":2,"right_line":2,"changes":[{"path":".\\"\\u009b\\"",'
     '"left":2}]}\n'
     '{"kind":"counts","changed":3,"removed":0,"added":0,"same":0,"not_shown":1}'),
    (["--key", "order.id,k[1]"], b'{"order":{"id":"x"},"k":[0,true]}\n', b"", 1,
     '- order.id="x",k[1]=true  left.ndjson line 1\n0 changed, 1 removed, 0 added, 0 the same.'),
    (["--key", "order.id", "--key", '."a.b"'], b'{"order":{"id":"\xc2\x9b"},"a.b":"\x7f,="}\n', b"",
     1,
     r'- order.id="\u009b",".\"a.b\""="\u007f,="  left.ndjson line 1'
     "\n0 changed, 1 removed, 0 added, 0 the same."),
    (["--key", '."a,b",c'], b'{"a,b":1,"c":2}\n', b"", 1,
     r'- ".\"a,b\""=1,c=2  left.ndjson line 1' "\n0 changed, 1 removed, 0 added, 0 the same."),
    (["--key", r'."a\u002cb"'], b'{"a,b":1.0}\n', b"", 1,
     r'- ".\"a\\u002cb\""=1  left.ndjson line 1' "\n0 changed, 1 removed, 0 added, 0 the same."),
    (["--key", "id", "--ignore", "id"], b'{"id":1,"a":1}\n{"id":2}\n',
     b'{"id":1.0,"a":2}\n{"id":3}', 1,
     "~ id=1  a 1 -> 2\n- id=2  left.ndjson line 2\n+ id=3  right.ndjson line 2\n"
     "1 changed, 1 removed, 1 added, 0 the same."),
    (["--key", "id", "--only", "b"], b'{"id":1,"a":1,"b":1}\n{"id":2,"a":1,"b":1}\n',
     b'{"id":2,"a":2,"b":2.0}\n{"id":1,"a":2,"b":1.0}\n', 1,
     "~ id=2  b 1 -> 2.0\n1 changed, 0 removed, 0 added, 1 the same."),
    (["--key", "id", "--missing-is-null"], b'{"id":null,"a":1}\n', b'{"a":1}', 2,
     'right.ndjson: line 1: the key "id" is missing: the document has "a"'),
    (["--limit", "1", "--ignore", "t"], b'{"t":1}\n{"a":1,"t":1}\n{"a":2,"t":1}\n',
     b'{"t":2}\n{"a":2,"t":2}\n{"a":3}\n', 1,
     "~ row 2  a 1 -> 2\n.. and 1 more\n2 changed, 0 removed, 0 added, 1 the same."),
    (["--format", "json", "--ignore", "a[].p", "--missing-is-null"],
     b'{"a":[{"p":1,"q":1}],"n":null}\n', b'{"a":[{"p":2,"q":2}]}\n', 1,
     '{"kind":"changed","key":{},"left_line":1,"right_line":1,"changes":[{"path":"a[0].q","left":1,'
     '"right":2}]}\n'
     '{"kind":"counts","changed":1,"removed":0,"added":0,"same":0,"not_shown":0}'),
    (["--key", "a.b"], b'{"a.b":1}\n', b"", 2,
     'left.ndjson: line 1: the key "a.b" is missing: the document has "a.b"'),
    (["--key", "a[1]"], b'{"a":[1]}\n', b"", 2,
     'left.ndjson: line 1: the key "a[1]" is missing: the document has "a"'),
    (["--key", "a[0]"], b'{"a":{"0":1}}\n', b"", 2,
     'left.ndjson: line 1: the key "a[0]" is missing: the document has "a"'),
    (["--key", "a.b"], b'{"a":{"b":1}}\n{"a":[1]}\n', b"", 2,
     'left.ndjson: line 2: the key "a.b" is missing: the document has "a"'),
    (["--key", "a,b"], b'{"a":1,"b":1}\n', b'{"a":1,"b":1}\n{"a":1}', 2,
     'right.ndjson: line 2: the key "b" is missing: the document has "a"'),
    (["--no-key-is-null", "--key", "id"], b'{"id":1}\n{"a":1}\n', b'{"id":null,"a":1}\n{"id":1}\n',
     1,
     "~ id=null  id missing -> null\n1 changed, 0 removed, 0 added, 1 the same."),
    (["--no-key-is-null", "--key", "id"], b'{"id":""}\n{"id":"null"}\n', b"{}\n", 1,
     '- id=""  left.ndjson line 1\n- id="null"  left.ndjson line 2\n'
     '+ id=null  right.ndjson line 1\n'
     "0 changed, 2 removed, 1 added, 0 the same."),
    (["--no-key-is-null", "--key", "a.b,k[1]"], b'{"a":1}\n{"a":{"b":null},"k":[0]}\n{"k":[0,1]}\n',
     b'{"k":[0,null]}\n', 1,
     "~ a.b=null,k[1]=null  a 1 -> missing, k missing -> [0,null]\n"
     "- a.b=null,k[1]=null  left.ndjson line 2\n"
     "- a.b=null,k[1]=1  left.ndjson line 3\n1 changed, 2 removed, 0 added, 0 the same."),
    (["--no-key-is-null", "--key", "id", "--format", "json"], b"{}\n", b"", 1,
     '{"kind":"removed","key":{"id":null},"line":1}\n'
     '{"kind":"counts","changed":0,"removed":1,"added":0,"same":0,"not_shown":0}'),
    (["--no-key-is-null", "--unique", "--key", "id"], b'{}\n{"id":1}\n{"id":null}\n', b"", 2,
     "left.ndjson: lines 1 and 3 have the same key: null"),
    (["--no-key-is-null", "--key", "id"], b"{}\n[]\n", b"", 2,
     "left.ndjson: line 2, column 1: not a JSON object"),
    (["--no-key-is-null"], b"{}\n", b"{}\n", 0, "0 changed, 0 removed, 0 added, 1 the same."),
    # lines that are passed over
    (["--skip-bad"], b"{}", b"{}\n", 0, "0 changed, 0 removed, 0 added, 1 the same."),
    (["--skip-bad"], b"\n{}\nnul\n", b"{}\n", 0,
     "0 changed, 0 removed, 0 added, 1 the same.\n"
     "Skipped 2 lines of left.ndjson (the first is line 1)."),
    (["--skip-bad"], b"\n\xff\n", b"", 2, "left.ndjson: --skip-bad would skip every line"),
    (["--skip-bad"], b"{}\n", b"[]", 2, "right.ndjson: --skip-bad would skip every line"),
    (["--skip-bad", "--key", "ID"], b'{"id":1}\n', b'{"id":1}\n', 2,
     "left.ndjson: --skip-bad would skip every line"),
    (["--skip-bad", "--key", "id", "--partition", "1/2"], b"[]\n", b"", 0,
     "0 changed, 0 removed, 0 added, 0 the same.\nSkipped 1 line of left.ndjson (line 1)."),
    (["--skip-bad"], b"", b"", 0, "0 changed, 0 removed, 0 added, 0 the same."),
    (["--skip-bad"], b"{}\n", b'{"a":2}\n[]', 1,
     "~ row 1  a missing -> 2\n1 changed, 0 removed, 0 added, 0 the same.\n"
     "Skipped 1 line of right.ndjson (line 2)."),
    (["--skip-bad", "--key", "id"], b'{"id":1}\n{}\n{"id":2}\n{"id":3,"id":3}\n',
     b'{"id":9}x\n{"id":1}\n{"id":4e%s}\n{"id":5}' % WIDE.encode(), 1,
     "- id=2  left.ndjson line 3\n+ id=5  right.ndjson line 4\n"
     "0 changed, 1 removed, 1 added, 1 the same.\n"
     "Skipped 2 lines of left.ndjson (the first is line 2).\n"
     "Skipped 2 lines of right.ndjson (the first is line 1)."),
    (["--skip-bad", "--key", "a,b"], b'{"a":1}\n{"b":1}\n{"a":1,"b":2}\n', b'{"a":1,"b":3}\n', 1,
     "- a=1,b=2  left.ndjson line 3\n+ a=1,b=3  right.ndjson line 1\n"
     "0 changed, 1 removed, 1 added, 0 the same.\n"
     "Skipped 2 lines of left.ndjson (the first is line 1)."),
    (["--skip-bad", "--key", "id"], b'{"id":1}\n', b'nul\n{"id":1}\nnul\n{"id":1}\n', 1,
     "+ id=1  right.ndjson line 4\n0 changed, 0 removed, 1 added, 1 the same.\n"
     "Skipped 2 lines of right.ndjson (the first is line 1)."),
    (["--skip-bad", "--key", "id", "--no-key-is-null"], b"{}\n", b'\n{"id":null}', 1,
     "~ id=null  id missing -> null\n1 changed, 0 removed, 0 added, 0 the same.\n"
     "Skipped 1 line of right.ndjson (line 1)."),
    (["--skip-bad", "--key", "id", "--unique"], b'{"id":1}\n[\n{"id":1}\n', b"", 2,
     "left.ndjson: lines 1 and 3 have the same key: 1"),
    (["--skip-bad", "--key", "id", "--limit", "1", "--color", "always"],
     b'[]\n{"id":1}\n{"id":2}\n', b"", 1,
     "\x1b[31m- id=1  left.ndjson line 2\x1b[0m\n.. and 1 more\n"
     "0 changed, 2 removed, 0 added, 0 the same.\n"
     "Skipped 1 line of left.ndjson (line 1)."),
    (["--skip-bad", "--key", "id", "--limit", "1", "--format", "json"],
     b'\n{"id":1,"a":1}\n\n{"id":2}\n', b'{"id":1,"a":2}\n', 1,
     '{"kind":"changed","key":{"id":1},"left_line":2,"right_line":1,"changes":[{"path":"a",'
     '"left":1,"right":2}]}\n'
     '{"kind":"counts","changed":1,"removed":1,"added":0,"same":0,"not_shown":1,"left_skipped":2,'
     '"right_skipped":0}'),
    (["--skip-bad", "--format", "json"], b"{}", b"{}", 0,
     '{"kind":"counts","changed":0,"removed":0,"added":0,"same":1,"not_shown":0,"left_skipped":0,'
     '"right_skipped":0}'),
    (["--unique", "--key", "id"], b'{"id":1}\n{"id":2}\n', b'{"id":2}\n{"id":1}\n', 0,
     "0 changed, 0 removed, 0 added, 2 the same."),
    (["--unique", "--key", "id"], b'{"id":1}\n{"id":2}\n{"id":1.0}\n', b"", 2,
     "left.ndjson: lines 1 and 3 have the same key: 1"),
    (["--unique", "--key", "id"], b'{"id":1}\n',
     b'{"id":{"a":1,"b":2}}\n{"id":{"b":2,"a":1}}\n{"id":1}\n{"id":1}', 2,
     "right.ndjson: lines 1 and 2 have the same key"),
    (["--color", "always", "--key", "id"], b'{"id":1,"a":1}\n{"id":2}\n',
     b'{"id":1,"b":2}\n{"id":3}\n', 1,
     "\x1b[33m~ id=1\x1b[0m  a \x1b[31m1\x1b[0m -> \x1b[32mmissing\x1b[0m, "
     "b \x1b[31mmissing\x1b[0m -> \x1b[32m2\x1b[0m\n"
     "\x1b[31m- id=2  left.ndjson line 2\x1b[0m\n\x1b[32m+ id=3  right.ndjson line 2\x1b[0m\n"
     "1 changed, 1 removed, 1 added, 0 the same."),
    (["--format", "json", "--key", "order.id"],
     b'{"order":{"id":"A-7"},"items":[0,1,{"price":9.5}],"tags":[1,"new"]}\n{"order":{"id":2.0}}\n',
     b'{"order":{"id":3}}\n{"order":{"id":"A-7"},"items":[0,1.0,{"price":9.750}],"tags":[1],'
     b'"n":null}\n',
     1,
     '{"kind":"changed","key":{"order.id":"A-7"},"left_line":1,"right_line":2,'
     '"changes":[{"path":"items[2].price","left":9.5,"right":9.750},'
     '{"path":"tags[1]","left":"new"},{"path":"n","right":null}]}\n'
     '{"kind":"removed","key":{"order.id":2},"line":2}\n'
     '{"kind":"added","key":{"order.id":3},"line":1}\n'
     '{"kind":"counts","changed":1,"removed":1,"added":1,"same":0,"not_shown":0}'),
    (["--format", "json", "--limit", "1"], b'{"a":1}\n{"a\\u007f":1}\n', b'{"a":1e1}\n', 1,
     '{"kind":"changed","key":{},"left_line":1,"right_line":1,"changes":[{"path":"a","left":1,'
     '"right":1e1}]}\n'
     '{"kind":"counts","changed":1,"removed":1,"added":0,"same":0,"not_shown":1}'),
)

# words, and what standard error has to have: the files of these are those of `NAMED`
TROUBLES = (
    (["missing.ndjson", "good.ndjson"], "missing.ndjson: "),
    (["good.ndjson", "missing.jsonl"], "missing.jsonl: "),
    (["--input", "ndjson", "-", "-"], "only one of the two files can be standard input"),
    (["good.ndjson", "table.csv"],
     'a CSV file and a JSON file can\'t be compared: if "table.csv" or "good.ndjson" has '
     "another format than its name says, give --input\n"),
    (["--key", "id", "--key", "n,id", "good.ndjson", "good.ndjson"], '--key has "id" twice'),
    (["--ignore", "a[]", "table.csv", "table.csv"],
     '--ignore: neither file has a column named "a[]"'),
    (["good.json", "good.ndjson"],
     "good.json: give --input ndjson where each line is a JSON document"),
    (["table.csv", "good.jsonl"], "dunkelva: "),
    (["--input", "xml", "good.ndjson", "good.ndjson"], "xml"),
    (["--input", "ndjson", "good.ndjson", "table.csv"],
     "table.csv: line 1, column 1: not valid JSON"),
    (["--input", "csv", "--key", "nope", "good.ndjson", "good.ndjson"],
     'no column is named "nope"'),
    (["--skip-bad", "--only", "x", "cracked.ndjson", "good.ndjson"],
     '--only: no document has a part at "x"\n'),
    (["--limit", "many", "good.ndjson", "good.ndjson"],
     '--limit takes a whole number such as 100, or 0 for all, not "many"\n'),
    (["--format", "xml", "good.ndjson", "good.ndjson"], "xml"),
    (["--color", "sometimes", "good.ndjson", "good.ndjson"], "sometimes"),
    (["--unique", "good.ndjson", "good.ndjson"], "--key"),
    (["--no-key-is-null", "table.csv", "table.csv"],
     "--no-key-is-null is for JSON documents alone"),
    (["--nope", "good.ndjson", "good.ndjson"], "--nope"),
    (["--missing-is-null", "table.csv", "table.csv"],
     "--missing-is-null is for JSON documents alone"),
    (["--skip-bad", "table.csv", "table.csv"], "--skip-bad is for JSON documents alone"),
    (["--missing-is-null", "--input", "csv", "good.ndjson", "good.ndjson"],
     "--missing-is-null is for JSON"),
    *(([option, f"id{word}", "good.ndjson", "good.ndjson"], f"{option}{said}") for word, said in (
        ("", " takes a path and a bound such as"), ("0.1", " takes a path and a bound such as"),
        ("=", ': the bound "" is not a number'), ("=x", ': the bound "x" is not a number'),
        ("=+1", ': the bound "+1" is not'),
        ("=.5", ': the bound ".5" is not a number: write 0.5\n'),
        ("=01", ': the bound "01" is not'), ("=1.", ': the bound "1." is not'),
        ("=1 ", ': the bound "1 " is not'), ("=1%", ': the bound "1%" is not a number: '),
        ("=0,25", ' takes a path and a bound such as items[].price=0.01, not "25": decimals stand '
                  "behind a point, and a comma parts two tolerances\n"),
        ("=-1", ': the bound "-1" is negative'), ("=-0", ': the bound "-0" is negative'),
        *((f"={bound}", f': the bound "{bound}" has an exponent of more than 30 digits')
          for bound in (f"1e{WIDE}", f"1e-{WIDE}")),
        *((f"={bound}", f': the bound "{bound}" has more than 18 digits')
          for bound in ("1" * 19, "1" + "0" * 18)),
        ("[=1", " takes paths such"))
      for option in ("--tolerance", "--relative-tolerance")),
    (["--tolerance", "=1", "good.ndjson", "good.ndjson"], "--tolerance takes paths such as"),
    (["--null", "", "good.ndjson", "good.ndjson"], "--null is for CSV files alone"),
    (["--common", "good.ndjson", "good.ndjson"], "--common is for CSV files alone"),
    *(([option, path, "good.ndjson", "good.ndjson"], f"{option} takes paths such as") for path in (
        "", ".", "id.", "id..a", "id[", "id[ ]", "id[a]", "id[-1]", "id]", "[]id", "a,", "a,,b",
        '."id', '."id"a', '."\\ud800"') for option in ("--only", "--ignore")),
    (["good.ndjson"], "RIGHT"),
    # a key path as other programs write it
    (["--key", "$.order.id", "nested.ndjson", "nested.ndjson"],
     'nested.ndjson: line 1: the key "$.order.id" is missing: did you mean "order.id"? The '
     'document has "order"\n'),
    (["--key", "/order/id", "nested.ndjson", "nested.ndjson"],
     ': did you mean "order.id"? The document has "order"\n'),
    (["--key", "order/ID", "nested.ndjson", "nested.ndjson"],
     ': did you mean "order.id"? The document has "order"\n'),
    (["--key", "order/number", "nested.ndjson", "nested.ndjson"],
     'the key "order/number" is missing: paths are written as order.id or items[0].sku, and the '
     'document has "order"\n'),
    (["--input", "ndjson", "--key", "$.n", "-", "good.ndjson"],
     '-: line 1: the key "$.n" is missing: paths are written as order.id or items[0].sku\n'),
    (["--key", "items[].sku", "good.ndjson", "good.ndjson"],
     '--key takes paths such as order.id or items[0].sku, not "items[].sku": a key path names one '
     'part, so no []\n'),
    (["good.ndjson", b"\xff.ndjson"], "invalid data"),
    *((["--key", path, "good.ndjson", "good.ndjson"], "") for path in (
        "", ".", "id.", "..id", "id..a", "id[", "id[]", "id[a]", "id[-1]", "id]", '."id', '."id"a',
        '."\\ud800"', "id[0]a", "id[1 ]")),
)
# words of runs that have to end with status 0
GOOD_WORDS = (["good.ndjson", "good.jsonl"], ["--input", "ndjson", "good.ndjson", "good.txt"],
              ["--input", "ndjson", "-", "good.ndjson"], ["--input", "ndjson", "good.ndjson", "-"],
              ["--input", "csv", "table.csv", "table.ndjson"], ["table.csv", "table.csv"],
              ["--only", "[].a,.id,x[1]", "--ignore", "[]", "good.ndjson", "good.jsonl"],
              ["--missing-is-null", "good.ndjson", "good.jsonl"],
              ["--skip-bad", "good.ndjson", "good.jsonl"],
              ["--tolerance", "id=0.1", "--relative-tolerance=[].a=1E-9", "good.ndjson",
               "good.jsonl"],
              ["--only", "id", "table.csv", "table.csv"],
              ["--key", "id", "--unique", "good.jsonl", "good.jsonl"],
              ["--key=.id", "good.jsonl", "good.jsonl"])
# what is said of the paths above that no document has, by the first word of a run
WARNED = {"--only": b'''dunkelva: warning: --only: no document has a part at "[].a"
dunkelva: warning: --only: no document has a part at "x[1]"
dunkelva: warning: --ignore: no document has a part at "[]"
''', "--tolerance": b'''dunkelva: warning: --relative-tolerance: no document has a part at "[].a"
'''}
# what is printed after the report if a run skips the bad line of `cracked.ndjson`
SKIPPED = b"Skipped 1 line of cracked.ndjson (line 1).\n"
# words, and what is said beside the report, where a file is the standard input or all options warn
WARNINGS = (
    (["--only", "d.A,id", "good.ndjson", "-"],
     b'dunkelva: warning: --only: no document of good.ndjson has a part at "d.A"; standard input '
     b"was not looked at again\n"),
    (["--only", "d.A", "-", "good.ndjson"],
     b'dunkelva: warning: --only: no document of good.ndjson has a part at "d.A"; standard input '
     b"was not looked at again\n"),
    (["--ignore", "d.A", "--tolerance", "x=1", "good.ndjson", "-"], b""),
    (["--only", "id", "good.ndjson", "-"], b""),
    (["--key", "idd", "--no-key-is-null", "good.ndjson", "good.jsonl"],
     b'dunkelva: warning: --key: no document has a part at "idd"\n'),
    (["--key", "id", "--no-key-is-null", "good.ndjson", "good.jsonl"], b""),
    (["--skip-bad", "--ignore", "x", "cracked.ndjson", "good.ndjson"],
     b'dunkelva: warning: --ignore: no document has a part at "x"\n'),
    (["--ignore", "item[].price,id", "--tolerance", "totl=1,id=1", "--relative-tolerance", "a=b=1",
      "--only", "id,ID", "good.ndjson", "good.jsonl"],
     b'''dunkelva: warning: --only: no document has a part at "ID"
dunkelva: warning: --ignore: no document has a part at "item[].price"
dunkelva: warning: --tolerance: no document has a part at "totl"
dunkelva: warning: --relative-tolerance: no document has a part at "a=b"
'''),
)
NAMED = {"nested.ndjson": b'{"order":{"id":1}}\n', "good.ndjson": b'{"id":1}\n',
         "good.jsonl": b'{"id":1.0}', "good.txt": b'{"id":1}\n',
         "cracked.ndjson": b'\xff\n{"id":1}\n',
         "table.csv": b"id\n1\n", "table.ndjson": b"id\n1\n"}
