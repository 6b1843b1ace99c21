"""Mails that look costly to read, each made in a size of bytes or so: fields, parameters, encoded words, parts, encodings, HTML."""

FIELD = 16_000  # bytes of one that is read whole


def times(part, size):
    part = part if isinstance(part, bytes) else part.encode()
    return part * max(1, size // len(part))


def numbered(line_of, size):
    """Lines by their numbers, up to a size."""
    lines, length = [], 0
    while length < size:
        lines.append(line_of(len(lines)).encode())
        length += len(lines[-1])
    return b"".join(lines)


def mail(body=b"e", **fields):
    values = [(name.replace("_", "-").encode(), value if isinstance(value, bytes) else value.encode()) for name, value in fields.items()]
    return b"Message-ID: <1@x>\n" + b"".join(b"%s: %s\n" % row for row in values) + b"\n" + body


def field(name, part, front="", end=""):
    """One field with as many parts as there is room for."""
    return lambda size: mail(**{name: front.encode() + times(part, size) + end.encode()})


def fields(part, front="", end="", name="To: "):
    """As many fields."""
    return lambda size: b"Message-ID: <1@x>\n" + times(f"{name}{front}".encode() + times(part, FIELD) + f"{end}\n".encode(), size) + b"\ne"


def heads(part, front=""):
    """As many parts of a mail, with fields that have as many parts as is read of one."""
    one = b"--b\n" + front.encode() + times(part, FIELD) + b"\n\ne\n"
    return lambda size: mail(times(one, size), Content_Type="multipart/mixed; boundary=b")


def parts(part, kind="mixed"):
    return lambda size: mail(times(part, size), Content_Type=f"multipart/{kind}; boundary=b")


def within(part, levels=29):
    """Parts within one another, and a text in the innermost."""
    head = b"".join(b"Content-Type: multipart/mixed; boundary=b%d\n\n--b%d\n" % (number, number) for number in range(levels))
    ends = b"".join(b"\n--b%d--" % number for number in reversed(range(levels)))
    return lambda size: b"Message-ID: <1@x>\n" + head + b"\n" + times(part, size) + ends


def text(charset, part, encoding="8bit", front=b""):
    return lambda size: mail(front + times(part, size), Content_Type=f"text/plain; charset={charset}", Content_Transfer_Encoding=encoding)


def page(part, front="", end=""):
    return lambda size: mail(front.encode() + times(part, size) + end.encode(), Content_Type="text/html")


def halves(part, **fields_of_half):
    """A field of half the size, and a text of the rest."""
    return lambda size: mail(times(part, size // 2), **{name: times(value, size // 2) for name, value in fields_of_half.items()})


TYPE, DISPOSITION = "Content-Type: text/plain; a=", "Content-Disposition: attachment; filename"
PARAMETERS = {
    "semicolons in an open quote, one field": field("Content_Type", ";", 'text/plain; a="'),
    "semicolons in an open quote": heads(";", f'{TYPE}"'), "the same of a disposition": heads(";", f'{DISPOSITION}="'),
    "quotes that are escaped": heads('\\"', f'{TYPE}"'),
    "backslashes": heads("\\", f'{TYPE}"'), "quotes": heads('"', TYPE),
    "semicolons": heads(";", TYPE), "parameters": heads(";a=b", TYPE), "equals signs of a parameter": heads("=", TYPE),
    "continuations": lambda size: heads(numbered("; filename*{}*=x".format, FIELD), "Content-Disposition: attachment")(size),
    "first continuations": heads(";filename*0*=x", "Content-Disposition: attachment"),
    "a continuation of many digits": heads("1", f"{DISPOSITION}=e; filename*"), "percent signs": heads("%41", f"{DISPOSITION}*=utf-8''"),
    "a name in punycode": heads("a", f"{DISPOSITION}*=punycode''a-"),
    "a charset in punycode": heads("a", f"{TYPE}b; charset*=punycode''a-"),
    "a boundary in punycode": heads("a", "Content-Type: multipart/mixed; boundary*=punycode''a-"),
    "a boundary of 16 KB": heads("a", "Content-Type: multipart/mixed; boundary="), "a charset of 16 KB": heads("a", f"{TYPE}b; charset="),
}
PRINTED = {
    "a subject before each match": halves("e\n", Subject="s"), "marks before each match": halves("e\n", Subject="\u0301"),
    "ideographs before each match": halves("e\n", Subject="\u6f22"), "a date before each match": halves("e\n", Date="d"),
    "an id before each match": lambda size: b"Message-ID: <" + times("i", size // 2) + b"\n\n" + times("e", size // 2),
    "names behind each match": lambda size: mail(b"--b\n\n" + times("e", size // 2) + b"\n" + times(
        "--b\nContent-Type: image/png; name=abcdefgh\n\n", size // 2), Content_Type="multipart/mixed; boundary=b"),
    "a match at each letter": text("utf-8", b"e"), "a match at each letter with a mark": text("utf-8", "e\u0301".encode()),
    "a match at each second ideograph": text("utf-8", "e\u6f22".encode()),
    "marks around each match": text("utf-8", ("e" + "\u0301" * 29).encode()),
    "a match with 1,000 soft hyphens": text("utf-8", ("e" + "\u00ad" * 1000).encode()),
}
WORDS = {
    "words without an end": fields("=?utf-8?q? "), "an end far away": fields("=?utf-8?q? ", end="?="),
    "an end in the next line": fields("=?utf-8?q? ", end="\n ?="), "an end behind another line end": fields("=?utf-8?q? ", end="\v?="),
    "a charset without an end": fields("=?a"), "words": fields("=?utf-8?q?e?="), "words with blanks between": fields("=?utf-8?q?e?= "),
    "words of two charsets": fields("=?utf-8?q?e?= =?latin1?q?e?= "), "words of base64": fields("=?utf-8?b?ZQ==?= "),
    "words of base64 that is cut off": fields("=?utf-8?b?e?= "), "a word in punycode": fields("b", "=?punycode?q?", "?="),
    "a word in idna": fields("b", "=?idna?q?", "?="), "a word in UTF-7": fields("+AOk-", "=?utf-7?q?", "?="),
    "a word": field("To", "e", "=?utf-8?q?", "?="),
}
FIELDS = {
    "addresses": field("To", "a <a@x>, "), "references": field("References", "<a@x> "), "comments in a date": field("Date", "("),
    "digits of a date": field("Date", "1", "Sun, 29 Nov "), "commas of a date": field("Date", ","), "words of a date": field("Date", "a "),
    "colons of a date": field("Date", ":", "Sun, 29 Nov 2026 1"), "lines of a field": field("Subject", "\n a"),
    "empty lines of a field": field("Subject", "\n "), "lines of a field that is not used": field("X_A", "\n a"),
    "signs of an id": field("Message_ID", "<"), "a type": field("Content_Type", "a", "text/"),
    "slashes of a type": field("Content_Type", "/"), "bytes of a type": field("Content_Type", b"\xff"),
    "an encoding": field("Content_Transfer_Encoding", "a"),
    **{f"fields `{part.strip()}`": lambda size, part=part: times(part, size) + b"Message-ID: <1@x>\n\ne" for part in (
        "a:\n", "To:\n", "Message-ID:\n", "Content-Type:\n", ">From \n", " a\n", ":\n", "\t\n")},
    "fields of different names": lambda size: numbered("a{}:\n".format, size) + b"\ne",
    "a name of a field": lambda size: times("a", size) + b": b\n\ne",
}
PARTS = {
    "within one another": lambda size: numbered("Content-Type: multipart/mixed; boundary=b{0}\n\n--b{0}\n".format, size),
    "one boundary within itself": lambda size: times("Content-Type: multipart/mixed; boundary=b\n\n--b\n", size),
    "boundaries that begin others": lambda size: b"".join(
        b"Content-Type: multipart/mixed; boundary=%s\n\n--%s\n" % (b"b" * n, b"b" * n) for n in range(1, 30)
    ) + b"\n" + times("--" + "b" * 30 + "\n", size),
    "mails within one another": lambda size: times("Content-Type: message/rfc822\n\n", size),
    **{f"29 within one another, {part[:8]!r}": within(part) for part in ("a\n", "\n", "--\n", "--b" + " " * 999 + "x\n", "e\n", "e")},
    **{f"parts {part[:40]!r}": parts(part) for part in (
        "--b\n\n", "--b\n\ne\n", "--b\n", "--b--\n", "--b" + " " * 999 + "x\n", "--b\nContent-Type: message/rfc822\n\nTo: e\n\ne\n",
        "--b\nContent-Type: image/png; name=a\n\n", "--b\nContent-Type: image/png; name=" + "a" * FIELD + "\n\n")},
    "parts that say the same": parts("--b\n\ne\n", "alternative"), "a digest": parts("--b\n\nTo: e\n\ne\n", "digest"),
    "reports of delivery": lambda size: mail(times("\n", size), Content_Type="message/delivery-status"),
    "fields of reports": lambda size: mail(times("a:b\n\n", size), Content_Type="message/delivery-status"),
    "no boundary": lambda size: mail(times("--b\n", size), Content_Type="multipart/mixed"), "another boundary": parts("--c\n"),
}
QUOTED, BASE64, UUENCODE = "quoted-printable", "base64", "x-uuencode"
TEXTS = {
    **{f"a text {part[:8]!r}": text("us-ascii", part) for part in (b"a", b"\n", b"a\n", b"\r", b">From \n", b"\xff", b" ", b"\0")},
    **{f"{encoding} {part[:8]!r}": text("utf-8", part, encoding) for encoding, part in (
        (QUOTED, b"="), (QUOTED, b"=\n"), (QUOTED, b"=65"), (QUOTED, b"a" + b" " * 999 + b"\n"), (QUOTED, b" "), (BASE64, b"ZWVl"),
        (BASE64, b"Z\n"), (BASE64, b"\n"), (BASE64, b"="), (BASE64, b"*Z"), (UUENCODE, b"begin 644 a\n"))},
    **{f"{UUENCODE} {part!r}": text("utf-8", part, UUENCODE, b"begin 644 a\n") for part in (b"#965E\n", b"\xff\n", b"M\n", b" \n")},
    **{f"{charset} {part!r}": text(charset, part, front=front) for charset, part, front in (
        ("punycode", b"a", b"a-"), ("idna", b"a", b""), ("idna", b"a.", b""), ("unicode_escape", b"\\u0065", b""), ("rot13", b"r", b""))},
    **{f"{charset} {part!r}": text(charset, part) for charset, part in (
        ("utf-7", b"+"), ("utf-7", b"+AOk-"), ("utf-7", b"+AOk"), ("utf-7", b"+2AA-"), ("utf-16", b"\xd8\0"), ("utf-16", b"e\0"),
        ("utf-32", b"e"), ("hz-gb-2312", b"~{"), ("hz-gb-2312", b"~"), ("hz-gb-2312", b"~{VPND~}"), ("iso-2022-jp", b"\x1b$B"),
        ("iso-2022-jp", b"\x1b"), ("iso-2022-jp", b"\x1b$Ba"), ("iso-2022-kr", b"\x0e"), ("iso-2022-kr", b"\x1b$)C"),
        ("iso-2022-jp-2", b"\x1b.A\x1bNe"), ("gb18030", b"\x810\x810"), ("gb18030", b"\xff"), ("big5", b"\x80"), ("euc-jp", b"\x8f"),
        ("shift_jis", b"\xfd"), ("euc-kr", b"\xa4\xd4"), ("johab", b"\xff"), ("windows-1252", b"\x81"), ("viscii", b"\x81"),
        ("tis-620", b"\xff"), ("koi8-r", b"\xc5"))},
}
PAGES = {
    **{f"HTML {part!r}": page(part) for part in (
        "<a ", "<a>", "<a b>", "<a b=c>", "<a b='", "<a b=\"'>", "<a/", "<a /", "<a =", "<", "<>", ">", "</", "</a", "</a>", "</ a>",
        "<!", "<!-", "<!--", "<!--a>", "<!-->", "<!--->", "<!-- >", "<!-- -->", "<!----", "-->", "<!a>", "<![", "<![CDATA[", "<![if>",
        "<?", "<?>", "&", "&amp", "&amp;", "&#", "&#1", "&#1;", "&#65;", "&#x", "&#xd800;", "&#000000000000065;", "&a", "&notit;", "&#\n",
        "<script>", "<script></", "<script></script>", "<script></script >", "<script><!--</script>", "<style>", "</script>",
        "<textarea>", "<title>", "<plaintext>", "<p>", "e<p>", "<b>e</b>", "<!DOCTYPE", "<!DOCTYPE [", "<a b='\"", "<a\n", "<a b=&",
        "<a b='&#1", "<a b =", "<a b= ", "<a b = c", "e<!--e-->", "\0", "<\0", "<a\0")},
    **{f"HTML, in a tag, {part!r}": page(part, "<a ", ">e") for part in (
        "b ", "bb ", "b=c ", "b='c' ", " ", " /", "=", "<a ", "b=", "'", "\"")},
    **{f"HTML, in a comment, {part!r}": page(part, "<!--", ">e") for part in ("-", "-- ", "- ", "--", "<!--")},
    "HTML, in a script": page("</script" + " " * 999, "<script>"), "HTML, zeros": page("0", "&#", "65;"),
    "HTML, digits": page("1", "&#"), "HTML, hexadecimal digits": page("a", "&#x"), "HTML, 4,301 digits": page("&#" + "1" * 4301),
    "HTML, comments and one end": page("<!--a>", "", "-->e"), "HTML, comments behind an end": page("<!--a>", "-->", "e"),
    "HTML, an open quote": page("<a b='c>\"", "", ">e"),
}
FORMS = {**PARAMETERS, **PRINTED, **WORDS, **FIELDS, **PARTS, **TEXTS, **PAGES}
