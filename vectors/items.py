"""Makes the vectors of prolog and items: stdin, the hexadecimal bytes of a document to a line, and what the program has to print (stdout).

    python3 items.py stdin       prints the one, and items.py stdout the other; no file is written

The answers come from the productions of XML 1.0 with the scope paper's cuts, written here as patterns over characters, not from the
definitions. Where the cuts change nothing they are those of expat: each item is set into a small document of its own, and it has to be
readable here exactly where expat finds that document well-formed. The differences have to be those of the table CUTS.
"""
import re
import sys
from xml.parsers import expat

# XML 1.0: productions 2 (Char) and 3 (S). A byte that is not UTF-8 is decoded to a lone surrogate, which is no Char.
CHAR = "[\t\n\r\x20-\ud7ff\ue000-\ufffd\U00010000-\U0010ffff]"
S = "[ \t\r\n]"
# "names are ASCII letters, digits, `_ - . :` and begin with a letter or `_`"
NAME = "[A-Za-z_][A-Za-z0-9_.:-]*"
# 66 CharRef, 68 EntityRef: "the five named references of XML 1.0 and numeric ones"; that these name a Char is asked in `tag`
REFERENCE = "&(?:amp|lt|gt|quot|apos|#[0-9]+|#x[0-9a-fA-F]+);"
# 10 AttValue, 41 Attribute, 25 Eq: with "no tab, CR or LF inside an attribute value"
VALUE = "|".join("%s(?:(?![%s<&\t\r\n])%s|%s)*%s" % (q, q, CHAR, REFERENCE, q) for q in "\"'")
ATTRIBUTE = "%s+(%s)%s*=%s*(%s)" % (S, NAME, S, S, VALUE)
# 40 STag, 44 EmptyElemTag, 42 ETag, 15 Comment
TAG = "<(%s)((?:%s)*)%s*(/?)>" % (NAME, re.sub(r"\((?!\?)", "(?:", ATTRIBUTE), S)
END = "</(%s)%s*>" % (NAME, S)
COMMENT = "<!--(?:(?!-)%s|-(?!-)%s)*-->" % (CHAR, CHAR)
# 23 XMLDecl: "version 1.0, then optionally encoding UTF-8 in any letter case, with single or double quotes"
DECLARATION = r"""<\?xml%s+version%s*=%s*(?:"1\.0"|'1\.0')(?:%s+encoding%s*=%s*(?:"(?i:utf-8)"|'(?i:utf-8)'))?%s*\?>""" % ((S,) * 7)

# What expat takes and the paper does not: its words, what they cut, and what could stand there instead
CUTS = [
    ("no DOCTYPE", r"<!DOCTYPE.*>", "<!---->"),
    ("CDATA", r"<!\[CDATA\[.*?\]\]>", "<!---->"),
    ("or other processing instruction", r"<\?(?!xml\s).*?\?>", "<!---->"),
    ("no `&` in a text", r"&[a-z0-9#]+;", "x"),
    ("no tab, CR or LF inside an attribute value", r"[\t\r\n]", " "),
    ("names are ASCII letters, digits, `_ - . :`", r"[^\x00-\x7F]", "n"),
    ("and begin with a letter or `_`", r"(?<=[</ ]):", "n"),
    # (expat takes any number of a version, also one that production 26 does not have)
    ("version 1.0", r"(?<=version=.)[^'\"]*", "1.0"),
    ("then optionally encoding UTF-8", r"(?<=encoding=.)[^'\"]*", "utf-8"),
    ("with anything else in it, it is an unreadable item", r"\s+standalone\s*=\s*.(yes|no).", ""),
]


def size(text):
    return len(text.encode("utf-8", "surrogateescape"))


def names_a_char(number):
    """of `#65` or `#x41`; a number of more digits than any Char has is none's"""
    digits, base = (number[2:], 16) if number.startswith("#x") else (number[1:], 10)
    digits = digits.lstrip("0")
    return 0 < len(digits) < 8 and int(digits, base) <= 0x10FFFF and bool(re.fullmatch(CHAR, chr(int(digits, base))))


def tag(found):
    name, attributes, slash = found.groups()
    if not all(names_a_char(number) for number in re.findall("&(#[^;]*);", attributes)):
        return None
    spans = {}
    for m in re.finditer(ATTRIBUTE, attributes):
        if m.group(1) in spans:
            return None
        start = size("<" + name + attributes[:m.start(2) + 1])
        spans[m.group(1)] = (start, size(m.group(2)) - 2)
    known = ["v", "codingScheme", "DtdBDEWNachrichtenVersion"]
    others = [n for n in spans if n not in known]
    passable = all(n == "xmlns" or n.startswith(("xmlns:", "xsi:")) for n in others)
    said = [spans.get(n, (0, 0)) for n in known]
    return "%s name %d v %d %d coding %d %d version %d %d others %d passable %d" % (
        ("empty" if slash else "start", len(name)) + said[0] + said[1] + said[2] + (bool(others), passable))


def item(text):
    """what is said of the item at the front, and its characters; None if it is unreadable"""
    if text.startswith("</"):
        found = re.match(END, text)
        return found and ("end name %d" % len(found.group(1)), found.group())
    if text.startswith("<!"):
        found = re.match(COMMENT, text)
        return found and ("comment", found.group())
    if text.startswith("<"):
        found = re.match(TAG, text)
        said = found and tag(found)
        return said and (said, found.group())
    run = re.match("[^<]*", text).group()
    if "&" in run or "]]>" in run or not re.fullmatch(CHAR + "*", run):
        return None
    return "text white %d" % bool(re.fullmatch(S + "*", run)), run


def begin(text):
    """the characters before the first item, and whether they are readable: what begins like a declaration has to be one"""
    mark = "\ufeff" if text.startswith("\ufeff") else ""
    rest = text[len(mark):]
    if not rest.startswith("<?xml"):
        return mark, True
    found = re.match(DECLARATION, rest)
    return (mark + found.group(), True) if found else (mark, False)


def answer(document):
    text = document.decode("utf-8", "surrogateescape")
    before, readable = begin(text)
    out = "%s %d" % ("from" if readable else "unreadable", size(before))
    at = len(before)
    while at < len(text):
        found = item(text[at:])
        if not found:
            return out + ": refused %d" % size(text[:at])
        out += ": %s len %d" % (found[0], size(found[1]))
        at += len(found[1])
    return out + ": over"


def is_well_formed(text):
    try:
        expat.ParserCreate().Parse(text.encode("utf-8", "surrogateescape"), True)
        return True
    except (expat.ExpatError, ValueError, LookupError):
        return False


def set_in(part, is_first):
    """documents around one item: one is well-formed if the item is"""
    if not part.startswith("<"):
        return ["<r>" + re.match("[^<]*", part).group() + "</r>"]
    if part.startswith("</"):
        return ["<" + re.match(r"</([^\s/>]*)", part).group(1) + ">" + part]
    if part.startswith(("<!", "<?")):
        return [("" if is_first else " ") + part + "<r/>", "<r>" + part + "</r>"]
    return [part, part + "</" + re.match(r"<([^\s/>]*)", part).group(1) + ">"]


def hold_to_expat(document, used):
    text = document.decode("utf-8", "surrogateescape")
    before, readable = begin(text)
    parts = []
    if readable and before:
        parts.append((before, True, True))
    at = len(before)
    while at < len(text):
        found = item(text[at:])
        parts.append((found[1] if found else text[at:], bool(found), at == len(before)))
        if not found:
            break
        at += len(found[1])
    for part, readable, is_first in parts:
        around = [part + "<r/>"] if part == before else set_in(part, is_first)
        formed = [is_well_formed(d) for d in around]
        if any(formed) == readable:
            continue
        cuts = [c for c in CUTS if reads(re.sub(c[1], c[2], part, flags=re.S))]
        if readable or not cuts:
            sys.exit("expat differs: readable %s, well-formed %s: %r" % (readable, formed, part))
        used.update(c[0] for c in cuts)


def reads(text):
    return bool(re.match(DECLARATION, text) or item(text))


def in_tags():
    white = [" ", "\t", "\r", "\n", " \t\r\n "]
    for w in white:
        for form in ("<a_>", "<a_/>", "</a_>", "<_a>", "</_a>", "<_/a>", "<a/_>", "<a_v='1'>", "<a v_='1'>", "<a v=_'1'>", "<a v='1'_>",
                     "<a v='1'_/>", "<a v='1'/_>", "<a v='1'_b='2'>", "<a v='_'>"):
            yield form.replace("_", w)
    # no white space where it is needed; what is none
    yield from ("<a v='1'b='2'>", "<av='1'>", "<a'1'>", "<a v='1'b>", "<a\f>", "<a\v/>", "<a\x85>", "<a\xA0/>", "<a\u2028>", "<a\u3000v='1'>", "</a\f>")
    # tags as such
    yield from ("<a>", "<a/>", "</a>", "<>", "< >", "</>", "</ >", "<//a>", "</a/>", "</a v='1'>", "</a b>", "</a", "</a ", "<a//>", "<a/b>", "<<a>", "<a<b>",
                "<a></a>", "<a>b</a>", "<a/>/>", "<=a>", "<a=>", "<a=''>", "<a v='1'<b>", "<a v='1'>>")
    # attributes that are none
    yield from ("<a v>", "<a v=>", "<a v=1>", "<a v='1>", "<a v=1'>", "<a v='1\">", "<a v=\"1'>", "<a ='1'>", "<a '1'>", "<a v b='1'>", "<a v=='1'>",
                "<a v='1''>", "<a v=`1`>", "<a v='1'='2'>", "<a v:='1'>", "<a v='1' b>", "<a v='1' />x", "<a v=\u201c1\u201d>")
    # a value and what may stand in it
    for c in ("", " ", "1", ">", "]]>", "/>", "--", "-->", "?>", "=", "\"", "<", "&", "&amp;", "&#10;", "&lt;", "\t", "\r", "\n", "1\n", "\x00", "\x01", "\x1F",
              "\x7F", "\x80", "\x9F", "\xE4", "\uD7FF", "\uE000", "\uFEFF", "\uFFFD", "\uFFFE", "\uFFFF", "\U0001FFFE", "\U0010FFFF"):
        yield "<a v='%s'/>" % c
        yield "<a v='x%sy' b=\"%s\">" % (c, c.replace('"', "'"))
    for b in (b"\x80", b"\xBF", b"\xC0\xAF", b"\xC3", b"\xE2\x82", b"\xED\xA0\x80", b"\xF0\x9F\x98", b"\xF4\x90\x80\x80", b"\xF5", b"\xFF"):
        yield b"<a v='" + b + b"'/>"
        yield b"<a v='x" + b + b"y'>"


def of_references():
    right = ("&amp;", "&lt;", "&gt;", "&quot;", "&apos;", "&#65;", "&#x41;", "&#x4a;", "&#x4A;", "&#0065;", "&#x0000041;", "&#9;", "&#10;", "&#13;", "&#32;", "&#60;", "&#38;", "&#34;", "&#39;", "&#127;", "&#xD7FF;",
             "&#xE000;", "&#xFFFD;", "&#x10000;", "&#x10FFFF;", "&#1114111;", "&amp;lt;", "&#38;#38;", "&amp;&amp;", "&#" + 60 * "0" + "65;", "\xE4&#228;\u20AC")
    wrong = ("&;", "&#;", "&#x;", "&#X41;", "&AMP;", "&Lt;", "&amp", "& amp;", "&amp ;", "&bad;", "&ampx;", "&am;", "&#", "&#x", "&#65", "&# 65;", "&#65 ;", "&#+65;", "&#6A;", "&#xG;", "&65;", "&x41;", "&#0;", "&#x0;", "&#8;", "&#11;",
             "&#12;", "&#14;", "&#31;", "&#xD800;", "&#xDFFF;", "&#xFFFE;", "&#xFFFF;", "&#x110000;", "&#1114112;", "&#4294967361;", "&#x100000041;", "&#18446744073709551681;", "&&amp;", "&am&amp;p;", "&#&#54;5;", "&lt<;", "&#\u0663;")
    for value in right + wrong:
        yield "<a v='%s'/>" % value
        yield "<a b='1' v=\"x%sy\" codingScheme='%s'>" % (value, value)
        yield "<a xmlns='%s' v='1'/>" % value
    for value in wrong:
        yield "<a v='&amp;%s'>" % value
        yield "<a v='%s&amp;'>" % value
    # a quote in one that is not finished, and where no reference may stand
    yield from ("<a v='&am'p;'/>", "<a v='&am' p;'/>", "<a v='&am\"p;'/>", "<a v=\"&#6\"5;/>", "<a v='&", "<a v='&a", "<a v='&amp;", "<a v='&#6", "<a&amp;>", "<&#97;>", "<a b&#61;'1'>", "<a &amp;='1'>", "<a v=&quot;1&quot;>", "</a&amp;>",
                "</&#97;>", "<a&#32;v='1'>", "<a v='1'&#62;", "<a v='&amp;' v='&#38;'/>", "<a v='&amp;' b='&lt;' v='1'/>", "<a v='&#39;' b=\"&#34;\"/>", "<a v='1' xsi:a='&lt;' c='&bad;'>")


def of_attributes():
    # the three that are known, and their places
    yield from ("<Qty v='12.5'/>", "<Qty v=''/>", "<Kostenblatt DtdBDEWNachrichtenVersion=\"1.0\">", "<a codingScheme='A10' v='1'/>", "<a v='1' codingScheme='NDE'>",
                "<a v=\"\xE4\u20AC\"  codingScheme = 'A10'\tDtdBDEWNachrichtenVersion\n=\n'' />", "<a v='' codingScheme='' DtdBDEWNachrichtenVersion=''/>",
                "<a b='v' c='v=\"1\"' v='2'/>", "<a b='\U0001F600' v='\xE4'/>")
    # others, and those that a root passes over
    names = ("xmlns", "xmlns:", "xmlns:x", "xsi:", "xsi:schemaLocation", "xsi", "xmlnsx", "xml:lang", "xmln", "Xmlns", "XMLNS:x", "xsI:a", "xxmlns", "axsi:b", "x",
             "V", "vv", "v:", "v.", "codingscheme", "codingSchem", "codingSchemes", "DtdBDEWNachrichtenversion", "DtdBDEWNachrichtenVersio",
             "DtdBDEWNachrichtenVersionn")
    for name in names:
        yield "<a %s='u'>" % name
        yield "<a xmlns='u' %s='u' v='1'/>" % ("b" + name)
    yield from ("<a xsi:a='1' b='1'>", "<a b='1' xsi:a='1'>", "<a xsi:a='1' xmlns='u' xmlns:b='u'>", "<a v='1' xmlns='u'/>", "<a xmlns='<'>", "<a xmlns='&amp;'>")
    # twice: known, other, beside each other and not, with the same value and not, in both quotes; equal by bytes alone
    for name in ("v", "codingScheme", "DtdBDEWNachrichtenVersion", "b", "xmlns", "xmlns:x", "xsi:x", "a:b:c"):
        yield "<a %s='1' %s='1'/>" % (name, name)
        yield "<a %s='1' c='1' d='1' %s=\"2\">" % (name, name)
        yield "<a c='1' %s='1' d='1' %s='' e='1'>" % (name, name)
    yield from ("<a b='1' B='1'/>", "<a b='1' bb='1'/>", "<a bb='1' b='1'/>", "<a b='1' b.='1' b-='1' b:='1' b_='1' b0='1'/>", "<a x:b='1' y:b='1' xmlns:x='u' xmlns:y='u'/>",
                "<a b='1' b='1'", "<a b='1' b='<'>", "<a b='b' c='b'/>")
    # many, in no order: once; the first, the last and one from the middle again
    for n in (32, 33):
        names = ["a%d" % (k * 19 % 37) for k in range(n)]
        for again in ([], names[:1], names[-1:], [names[n // 2]]):
            yield "<a" + "".join(" %s=''" % name for name in names + again) + ">"
    yield "<a" + " b=''" * 40 + ">"
    yield "<a" + "".join(" %s=''" % ("b" * k) for k in range(40, 0, -1)) + "/>"
    yield "<a" + "".join(" a%d=''" % k for k in range(40)) + " a7=''"


def of_names():
    for b in range(256):
        yield b"<" + bytes([b]) + b"a>"
    for b in range(256):
        yield b"<a" + bytes([b]) + b">"
    # of end tags and attributes: both ends of each range and what is beside them
    for b in (0x00, 0x09, 0x20, 0x2C, 0x2D, 0x2E, 0x2F, 0x30, 0x39, 0x3A, 0x3B, 0x40, 0x41, 0x5A, 0x5B, 0x5E, 0x5F, 0x60, 0x61, 0x7A, 0x7B, 0x7F, 0x80, 0xB7, 0xC3, 0xFF):
        for form in (b"</_a>", b"</a_>", b"<a _b=''>", b"<a b_=''/>"):
            yield form.replace(b"_", bytes([b]), 1)
    for name in ("a:b:c", "a:", "a::b", ":a", ":", "-a", ".a", "1a", "_", "_1", "a1", "a-.:_Z9z", "\xE4", "a\xE4", "\xB7a", "a\xB7", "a\u0300", "\u0391", "\u20AC", "xml", "a\uFFFF"):
        for form in ("<_>", "<_/>", "</_>", "<a _='1'>"):
            yield form.replace("_", name, 1)


def cut_off():
    for whole in ("<a v=\"\xE4\" b = '1' />", "</abc >", "<!-- \xE4 - -->", "<?xml version=\"1.0\" encoding='UTF-8' ?>", "\uFEFF<a/>", "\uFEFF<?xml version='1.0'?>"):
        coded = whole.encode()
        for n in range(len(coded) + 1):
            yield coded[:n]


def other_markup():
    yield from ("<!DOCTYPE r>", "<!DOCTYPE r []>", "<!DOCTYPE r SYSTEM 'a'>", "<!doctype r>", "<![CDATA[]]>", "<![CDATA[x]]>", "<![CDATA[<a>]]>", "<!ELEMENT a ANY>", "<!a>", "<!>", "<! -- -->",
                "<?a?>", "<?a b?>", "<?a ?>", "<?xml-stylesheet href='a'?>", "<?XML version='1.0'?>", "<? xml version='1.0'?>", "<??>", "<?>", "<?xmlversion='1.0'?>", "<?xml?>", "<?xml ?>",
                "<!DOCTYPE", "<![CDATA[", "<?a")
    # comments
    yield from ("<!---->", "<!-- -->", "<!--a-->", "<!--->-->", "<!--->", "<!-->", "<!----->", "<!-- --->", "<!-- -- -->", "<!----", "<!---", "<!--a--", "<!--a--b-->", "<!--a- -->", "<!---a-->",
                "<!-- - - -->", "<!--&-->", "<!--&amp;&x-->", "<!--]]>-->", "<!--<a>-->", "<!--<!-- -->", "<!--<!---->", "<!--?>-->", "<!--\t\r\n-->", "<!-- a='1' a='1' -->", "<!--\xE4-->",
                "<!--a-->b", "<!--a--><!--b-->", "<!-- a", "<!-- a -", "<!--a-->-->", "<!-x->", "<!-- a --\n>", "<!-- a -- >", "<!--a->-->", "<!--a>-->")
    for b in (b"\x00", b"\x08", b"\x0B", b"\x1F", b"\x7F", b"\x80", b"\xC3", b"\xC0\xAF", b"\xED\xA0\x80", b"\xEF\xBF\xBD", b"\xEF\xBF\xBE", b"\xEF\xBF\xBF", b"\xF0\x9F\xBF\xBE", b"\xF4\x90\x80\x80", b"\xFF"):
        yield b"<!--" + b + b"-->"
        yield b"<!--a" + b + b"b-->"


def of_texts():
    yield from (" ", "\t", "\r", "\n", "\r\n", " \t\r\n \t\r\n", "a", " a", "a ", " a <b>", " \n<b>", "\n", "abc", "0", "'", "\"", "=", "/", "!", "?", "-", "--", "-->", "/>", "?>", ">", ">>", " > ",
                "]", "]]", "]]]", "] ]>", "]>", "]]a>", "]]>", "]]]>", "]]]]>", " ]]>", "a]]>b", "]]> ", "]]<a>", "]<a>]]>", "&", "&amp;", "&#65;", "a&", " &", "&<", "a &lt; b", "abc &<a>", "  &", "a<b&c>", ";",
                "\xE4", "\u20AC", "\U0001F600", " \xE4 ", "\x7F", "\x80", "\x85", "\x9F", "\xA0", "\u2028", "\uFEFF", "\uD7FF", "\uE000", "\uFFFD", "\U0001FFFE", "\U0010FFFF", "\f", "\v", "\x00", " \x00", "\x01", "\x1F",
                "\uFFFE", "\uFFFF", "a\uFFFF<b>", "<a>\n<b/>\n</a>\n", "<a> x </a>", "\n<!-- a -->\n<a/>")
    for b in (b"\x80", b"\xBF", b"\xC0\x80", b"\xC1\xBF", b"\xC3", b"\xE2\x82", b"\xE0\x9F\xBF", b"\xED\xA0\x80", b"\xF0\x8F\xBF\xBF", b"\xF4\x90\x80\x80", b"\xF5\x80\x80\x80", b"\xFE", b"\xFF"):
        yield b
        yield b" " + b + b"<a>"
        yield b"a" + b + b" "


def of_marks():
    mark = "\uFEFF"
    for rest in ("", "<a/>", "<a v='1'>", " ", "a", mark, mark + "<a/>", "<", "<!---->", "<?xml version='1.0'?>", "<?xml version='1.1'?>", "\n<?xml version='1.0'?>", "<?xml version='1.0'?>" + mark,
                 "<?xml version='1.0'?><a/>", "<?xml version='1.0'?>\n<a", "<?a?>", "&", "</a>"):
        yield mark + rest
    for b in (b"\xEF", b"\xEF\xBB", b"\xEF\xBB<a/>", b"\xEF<a/>", b"\xBB\xBF", b"\xEF\xBB\xBE", b"\xEF\xBB\xBF\xEF", b"\xEF\xBB\xBF\xEF\xBB", b"\xFE\xFF", b"\xFF\xFE"):
        yield b
    yield from (" " + mark, "<a/>" + mark, mark + "]]>", "")


def of_declarations():
    yield from ("<?xml version=\"1.0\"?>", "<?xml version='1.0'?>", "<?xml version='1.0'?><a/>", "<?xml version='1.0'?>\n", "<?xml version='1.0'?>x", "<?xml version='1.0'?><", "<?xml version='1.0'?>&")
    for number in ("1.0", "1.1", "1", "1.", "1.00", "01.0", "2.0", "", " 1.0", "1.0 ", "1,0"):
        yield "<?xml version=\"%s\" ?>" % number
    for coding in ("UTF-8", "utf-8", "Utf-8", "uTf-8", "UTF8", "utf8", "UTF-16", "UTF_8", "UTF-80", "UTF-", "", " UTF-8", "UTF-8 ", "iso-8859-1", "ISO-8859-1", "us-ascii", "ut\xC6-8", "\u017FTF-8", "UTF\u20118", "[TF-8", "uTF-X"):
        yield "<?xml version='1.0' encoding='%s'?>" % coding
        yield "<?xml version='1.0' encoding=\"%s\"?><a/>" % coding
    # quotes that differ, and quotes that do not close
    yield from ("<?xml version='1.0' encoding=\"UTF-8\"?>", "<?xml version=\"1.0\" encoding='UTF-8'?>", "<?xml version='1.0\"?>", "<?xml version=1.0?>", "<?xml version='1.0' encoding=UTF-8?>",
                "<?xml version='1.0' encoding='UTF-8\"?>", "<?xml version='1.0?>", "<?xml version=''1.0'?>")
    # white space: needed, allowed, not allowed
    for w in ("", " ", "\t", "\r", "\n", " \t\r\n "):
        for form in ("<?xml_version='1.0'?>", "<?xml version_='1.0'?>", "<?xml version=_'1.0'?>", "<?xml version='1.0'_?>", "<?xml version='1.0'_encoding='UTF-8'?>",
                     "<?xml version='1.0' encoding_=_'UTF-8'?>", "<?xml version='1.0' encoding='UTF-8'_?>", "<?xml version='1.0'?_>", "<_?xml version='1.0'?>", "<?_xml version='1.0'?>"):
            yield form.replace("_", w)
    # anything else in it
    yield from ("<?xml version='1.0' standalone='yes'?>", "<?xml version='1.0' standalone='no'?>", "<?xml version='1.0' encoding='UTF-8' standalone='yes'?>", "<?xml version='1.0' encoding='UTF-8' standalone=\"no\" ?>",
                "<?xml version='1.0' standalone='yes' encoding='UTF-8'?>", "<?xml encoding='UTF-8'?>", "<?xml encoding='UTF-8' version='1.0'?>", "<?xml version='1.0' version='1.0'?>",
                "<?xml version='1.0' encoding='UTF-8' encoding='UTF-8'?>", "<?xml Version='1.0'?>", "<?xml VERSION='1.0'?>", "<?xml version='1.0' Encoding='UTF-8'?>", "<?xml version='1.0' a='1'?>",
                "<?xml version='1.0' encoding='UTF-8' a='1'?>", "<?xml version='1.0' encoding?>", "<?xml version='1.0' encoding=?>", "<?xml version?>", "<?xml version='1.0' ??>", "<?xml version='1.0'>", "<?xml version='1.0'/>",
                "<?xml version='1.0'/?>", "<?xml version='1.0' >", "<?xml version='1.0' encoding='UTF-8'>", "<?xml version='1.0' encoding='UTF-8'/>", "<?xml version='1.0' x?>", "<?xml version='1.0'?", "<?xml version='1.0' ",
                "<?xml versions='1.0'?>", "<?xml versio='1.0'?>", "<?xml version='1.0' encodings='UTF-8'?>", "<?xml 1.0?>", "<?xml version='1.0'\x00?>", "<?xml version='&#49;.0'?>")
    # in another place
    yield from (" <?xml version='1.0'?>", "\n<?xml version='1.0'?>", "<!----><?xml version='1.0'?>", "<?xml version='1.0'?><?xml version='1.0'?>", "<a/><?xml version='1.0'?>", "x<?xml version='1.0'?>",
                "<?xml version='1.0'?>\n<!-- a -->\n<Kostenblatt DtdBDEWNachrichtenVersion=\"1.0\">\n")


def main():
    documents, used = [], set()
    for group in (in_tags, of_references, of_attributes, of_names, cut_off, other_markup, of_texts, of_marks, of_declarations):
        for d in group():
            documents.append(d if isinstance(d, bytes) else d.encode())
    for d in documents:
        hold_to_expat(d, used)
    for words in [c[0] for c in CUTS if c[0] not in used]:
        sys.exit("no vector for this cut: " + words)
    documents = list(dict.fromkeys(documents))
    sys.stdout.writelines((d.hex(" ").upper() if sys.argv[1] == "stdin" else answer(d)) + "\n" for d in documents)


main()
