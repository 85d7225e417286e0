//! libxml2: a document in memory as a tree, and XML Schemas that judge trees.

use std::ffi::{c_char, c_int, c_void, CStr, CString};
use std::ptr::{null, null_mut};

/// The front of libxml2's xmlNode.
#[repr(C)]
struct Node {
    private: *mut c_void,
    kind: c_int,
    name: *const c_char,
}

#[repr(C)]
struct Error {
    domain: c_int,
    code: c_int,
    message: *const c_char,
}

type Report = extern "C" fn(*mut c_void, *const Error);
type Loader = extern "C" fn(*const c_char, *const c_char, *mut c_void) -> *mut c_void;

extern "C" {
    fn xmlReadMemory(text: *const u8, len: c_int, url: *const c_char, encoding: *const c_char, options: c_int) -> *mut c_void;
    fn xmlSAXUserParseMemory(handler: *mut usize, context: *mut c_void, text: *const u8, len: c_int) -> c_int;
    fn xmlFreeDoc(doc: *mut c_void);
    fn xmlDocGetRootElement(doc: *mut c_void) -> *mut Node;
    fn xmlGetLastError() -> *const Error;
    fn xmlResetLastError();
    fn xmlSetStructuredErrorFunc(context: *mut c_void, report: Option<Report>);
    fn xmlSetExternalEntityLoader(loader: Option<Loader>);
    fn xmlSchemaNewParserCtxt(path: *const c_char) -> *mut c_void;
    fn xmlSchemaParse(parser: *mut c_void) -> *mut c_void;
    fn xmlSchemaFreeParserCtxt(parser: *mut c_void);
    fn xmlSchemaNewValidCtxt(schema: *mut c_void) -> *mut c_void;
    fn xmlSchemaFreeValidCtxt(context: *mut c_void);
    fn xmlSchemaValidateDoc(context: *mut c_void, doc: *mut c_void) -> c_int;
    fn xmlSchemaFree(schema: *mut c_void);
}

/// XML_PARSE_NOERROR, NOWARNING, NONET, and HUGE: 01 has no limits of depth or of a name's length.
const OPTIONS: c_int = 1 << 5 | 1 << 6 | 1 << 11 | 1 << 19;
/// An xmlSAXHandler has fewer words than this. All of them 0 is one that builds no tree and is not of the second version, so that
/// libxml2 reads names as XML 1.0 has them.
const HANDLER_WORDS: usize = 64;

extern "C" fn no_report(_: *mut c_void, _: *const Error) {}

extern "C" fn no_file(_: *const c_char, _: *const c_char, _: *mut c_void) -> *mut c_void {
    null_mut()
}

/// After the schemas are read nothing is printed, and no file or address that a document names is looked at.
pub fn shut() {
    // Both functions live as long as the program.
    unsafe {
        xmlSetStructuredErrorFunc(null_mut(), Some(no_report));
        xmlSetExternalEntityLoader(Some(no_file));
    }
}

/// What libxml2 last complained of.
pub fn complaint() -> String {
    // libxml2 keeps the message until the next one.
    unsafe {
        let error = xmlGetLastError();
        if error.is_null() {
            "nothing".to_owned()
        } else {
            text_of((*error).message).trim().to_owned()
        }
    }
}

unsafe fn text_of(text: *const c_char) -> String {
    if text.is_null() {
        String::new()
    } else {
        CStr::from_ptr(text).to_string_lossy().into_owned()
    }
}

pub struct Tree(*mut c_void);

/// Whether libxml2 says that a document is well-formed by XML 1.0 alone. Its reader of namespaces refuses some names that XML 1.0 has, as
/// `a:b:1`; 01 has them too.
pub fn well_formed_by_names_alone(doc: &[u8]) -> bool {
    let Ok(len) = c_int::try_from(doc.len()) else { return false };
    let mut handler = [0_usize; HANDLER_WORDS];
    // The handler outlives the call, and the length is the document's.
    unsafe { xmlSAXUserParseMemory(handler.as_mut_ptr(), null_mut(), doc.as_ptr(), len) == 0 }
}

impl Tree {
    /// None where libxml2 says that the document isn't well-formed.
    pub fn of(doc: &[u8]) -> Option<Tree> {
        let len = c_int::try_from(doc.len()).ok()?;
        // The length is the document's.
        let tree = unsafe {
            xmlResetLastError();
            xmlReadMemory(doc.as_ptr(), len, null(), null(), OPTIONS)
        };
        if tree.is_null() {
            None
        } else {
            Some(Tree(tree))
        }
    }

    pub fn root_name(&self) -> String {
        // A tree that was read has a root.
        unsafe { text_of((*xmlDocGetRootElement(self.0)).name) }
    }
}

impl Drop for Tree {
    fn drop(&mut self) {
        // The tree is this one's own.
        unsafe { xmlFreeDoc(self.0) }
    }
}

pub struct Schema {
    schema: *mut c_void,
    judge: *mut c_void,
}

impl Schema {
    pub fn read(path: &str) -> Option<Schema> {
        let path = CString::new(path).ok()?;
        // The parser is freed once; the schema outlives its judge.
        unsafe {
            let parser = xmlSchemaNewParserCtxt(path.as_ptr());
            let schema = if parser.is_null() { null_mut() } else { xmlSchemaParse(parser) };
            xmlSchemaFreeParserCtxt(parser);
            if schema.is_null() {
                return None;
            }
            Some(Schema { schema, judge: xmlSchemaNewValidCtxt(schema) })
        }
    }

    pub fn accepts(&self, tree: &Tree) -> bool {
        // Both are alive.
        unsafe { xmlSchemaValidateDoc(self.judge, tree.0) == 0 }
    }
}

impl Drop for Schema {
    fn drop(&mut self) {
        // Both are this one's own.
        unsafe {
            xmlSchemaFreeValidCtxt(self.judge);
            xmlSchemaFree(self.schema);
        }
    }
}
