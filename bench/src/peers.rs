//! The peers: expat and libxml2 with handlers that do nothing, quick-xml with every event and attribute taken, libxml2 with the XML Schemas of `peers/`,
//! and plain scans of the bytes.
use quick_xml::events::Event;
use quick_xml::Reader;
use std::ffi::CString;
use std::os::raw::{c_char, c_int, c_void};
use std::ptr::{null, null_mut};

type Parser = *mut c_void;
type Start = extern "C" fn(*mut c_void, *const c_char, *const *const c_char);
type End = extern "C" fn(*mut c_void, *const c_char);
type Data = extern "C" fn(*mut c_void, *const c_char, c_int);

extern "C" {
    fn XML_ParserCreate(encoding: *const c_char) -> Parser;
    fn XML_SetElementHandler(p: Parser, start: Start, end: End);
    fn XML_SetCharacterDataHandler(p: Parser, data: Data);
    fn XML_SetCommentHandler(p: Parser, comment: End);
    fn XML_Parse(p: Parser, s: *const c_char, len: c_int, last: c_int) -> c_int;
    fn XML_ParserFree(p: Parser);
}

extern "C" fn on_start(_: *mut c_void, _: *const c_char, _: *const *const c_char) {}
extern "C" fn on_end(_: *mut c_void, _: *const c_char) {}
extern "C" fn on_data(_: *mut c_void, _: *const c_char, _: c_int) {}

pub fn expat(doc: &[u8]) -> usize {
    unsafe {
        let p = XML_ParserCreate(null());
        XML_SetElementHandler(p, on_start, on_end);
        XML_SetCharacterDataHandler(p, on_data);
        XML_SetCommentHandler(p, on_end);
        let ok = XML_Parse(p, doc.as_ptr().cast(), doc.len() as c_int, 1);
        XML_ParserFree(p);
        if ok == 1 { doc.len() } else { 0 }
    }
}

pub fn quick(doc: &[u8]) -> usize {
    let mut reader = Reader::from_reader(doc);
    let mut n = 0;
    loop {
        match reader.read_event() {
            Ok(Event::Eof) => return n,
            Ok(Event::Start(tag)) | Ok(Event::Empty(tag)) => {
                n += 1;
                for a in tag.attributes() {
                    match a {
                        Ok(a) => n += a.value.len(),
                        Err(_) => return 0,
                    }
                }
            }
            Ok(_) => n += 1,
            Err(_) => return 0,
        }
    }
}

/// libxml2's table of handlers (its header `parser.h`): 27 of them, a mark that the last ones are used, and those for names with their prefixes.
#[repr(C)]
struct Handlers {
    first: [*const c_void; 27],
    mark: u32,
    own: *const c_void,
    start: *const c_void,
    end: *const c_void,
    fault: *const c_void,
}

const CHARACTERS: usize = 17;
const WHITE: usize = 18;
const COMMENT: usize = 20;
const SAX2: u32 = 0xDEED_BEAF;

extern "C" {
    fn xmlSAXUserParseMemory(handlers: *mut Handlers, own: *mut c_void, s: *const c_char, len: c_int) -> c_int;
}

type Name = *const c_char;
extern "C" fn on_start_named(_: *mut c_void, _: Name, _: Name, _: Name, _: c_int, _: *const Name, _: c_int, _: c_int, _: *const Name) {}
extern "C" fn on_end_named(_: *mut c_void, _: Name, _: Name, _: Name) {}

pub fn libxml2(doc: &[u8]) -> usize {
    let mut handlers = Handlers { first: [null(); 27], mark: SAX2, own: null(), start: on_start_named as *const c_void, end: on_end_named as *const c_void, fault: null() };
    handlers.first[CHARACTERS] = on_data as *const c_void;
    handlers.first[WHITE] = on_data as *const c_void;
    handlers.first[COMMENT] = on_end as *const c_void;
    let refused = unsafe { xmlSAXUserParseMemory(&mut handlers, null_mut(), doc.as_ptr().cast(), doc.len() as c_int) };
    if refused == 0 { doc.len() } else { 0 }
}

extern "C" {
    fn xmlReadMemory(s: *const u8, len: c_int, url: *const c_char, encoding: *const c_char, options: c_int) -> *mut c_void;
    fn xmlFreeDoc(tree: *mut c_void);
    fn xmlParserInputBufferCreateMem(s: *const u8, len: c_int, encoding: c_int) -> *mut c_void;
    fn xmlSchemaNewParserCtxt(path: *const c_char) -> *mut c_void;
    fn xmlSchemaParse(parser: *mut c_void) -> *mut c_void;
    fn xmlSchemaFreeParserCtxt(parser: *mut c_void);
    fn xmlSchemaNewValidCtxt(schema: *mut c_void) -> *mut c_void;
    fn xmlSchemaValidateDoc(judge: *mut c_void, tree: *mut c_void) -> c_int;
    fn xmlSchemaValidateStream(judge: *mut c_void, input: *mut c_void, encoding: c_int, handlers: *mut Handlers, own: *mut c_void) -> c_int;
}

/// XML_PARSE_NOERROR, NOWARNING, NONET and HUGE.
const OPTIONS: c_int = 1 << 5 | 1 << 6 | 1 << 11 | 1 << 19;
const UTF_8: c_int = 1;

/// The judge of a schema in `peers/schema`, read once for a thread and kept, so that the time of reading it counts in no round.
fn judge_of(schema: &str) -> *mut c_void {
    let path = CString::new(format!("{}/../peers/schema/{schema}.xsd", env!("CARGO_MANIFEST_DIR"))).expect("a path");
    unsafe {
        let parser = xmlSchemaNewParserCtxt(path.as_ptr());
        let schema = xmlSchemaParse(parser);
        xmlSchemaFreeParserCtxt(parser);
        assert!(!schema.is_null(), "no schema");
        xmlSchemaNewValidCtxt(schema)
    }
}

thread_local! {
    static JUDGES: [*mut c_void; 3] = ["beschaffungsanforderung", "kostenblatt", "networkconstraintdocument"].map(judge_of);
}

fn by_judge(doc: &[u8], judged: impl Fn(*mut c_void) -> c_int) -> usize {
    let kind = match doc.get(1) {
        Some(b'B') => 0,
        Some(b'K') => 1,
        _ => 2,
    };
    if JUDGES.with(|judges| judged(judges[kind])) == 0 { doc.len() } else { 0 }
}

/// As `xmllint --schema` does it: the document as a tree, the tree judged by the schema of its kind.
pub fn schema(doc: &[u8]) -> usize {
    by_judge(doc, |judge| unsafe {
        let tree = xmlReadMemory(doc.as_ptr(), doc.len() as c_int, null(), null(), OPTIONS);
        let refused = if tree.is_null() { -1 } else { xmlSchemaValidateDoc(judge, tree) };
        xmlFreeDoc(tree);
        refused
    })
}

/// The same schema over libxml2's events, with no tree.
pub fn schema_stream(doc: &[u8]) -> usize {
    by_judge(doc, |judge| unsafe {
        let input = xmlParserInputBufferCreateMem(doc.as_ptr(), doc.len() as c_int, UTF_8);
        xmlSchemaValidateStream(judge, input, UTF_8, null_mut(), null_mut())
    })
}

/// Counts `<`, byte by byte. The compiler makes vector instructions of it.
pub fn scan(doc: &[u8]) -> usize {
    let mut n = 0;
    for b in doc {
        if *b == b'<' {
            n += 1;
        }
    }
    n
}

extern "C" {
    fn memchr(s: *const c_void, byte: c_int, len: usize) -> *const c_void;
}

/// Counts `<` by the C library's memchr, from one to the next.
pub fn hops(doc: &[u8]) -> usize {
    let (mut n, mut rest) = (0, doc);
    loop {
        // The length is that of the part.
        let found = unsafe { memchr(rest.as_ptr().cast(), c_int::from(b'<'), rest.len()) };
        if found.is_null() {
            return n;
        }
        n += 1;
        rest = &rest[found as usize - rest.as_ptr() as usize + 1..];
    }
}
